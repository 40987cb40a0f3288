#define _DEFAULT_SOURCE /* mmap with MAP_ANONYMOUS */
#include "lent.h"

#include "draw.h"

#include <stdio.h>
#include <stdlib.h>
#include <string.h>
#include <sys/mman.h>
#include <unistd.h>

static void need(int ok, const char *what)
{
    if (!ok) {
        perror(what);
        exit(2);
    }
}

void lent_open(struct lent *s, const char *name, size_t room_len)
{
    size_t page = (size_t)sysconf(_SC_PAGESIZE);
    s->name = name;
    s->room_len = (room_len + page - 1) / page * page;
    uint8_t *all = mmap(NULL, s->room_len + 2 * page, PROT_NONE, MAP_PRIVATE | MAP_ANONYMOUS, -1, 0);
    need(all != MAP_FAILED, "mmap");
    s->room = all + page;
    need(mprotect(s->room, s->room_len, PROT_READ | PROT_WRITE) == 0, "mprotect");
    s->before = malloc(s->room_len);
    need(s->before != NULL, "malloc");
    s->at = s->room;
    s->len = 0;
}

void lent_place(struct lent *s, const uint8_t *bytes, size_t len)
{
    lent_place_aligned(s, bytes, len, 1);
}

void lent_place_aligned(struct lent *s, const uint8_t *bytes, size_t len, size_t unit)
{
    if (len > s->room_len) {
        fprintf(stderr, "%s: no room for a slice of %zu bytes\n", s->name, len);
        exit(2);
    }
    size_t places[3] = {0, s->room_len - len, unit * draw_below((s->room_len - len) / unit + 1)};
    s->at = s->room + places[draw_below(3)];
    s->len = len;
    draw_bytes(s->room, s->room_len);
    if (bytes != NULL)
        memcpy(s->at, bytes, len);
    memcpy(s->before, s->room, s->room_len);
}

int lent_holds(const struct lent *s, const uint8_t *want)
{
    size_t start = (size_t)(s->at - s->room), end = start + s->len;
    if (want == NULL)
        want = s->before + start;
    if (memcmp(s->room, s->before, start) == 0 && memcmp(s->at, want, s->len) == 0 &&
        memcmp(s->room + end, s->before + end, s->room_len - end) == 0)
        return 1;
    size_t i = 0;
    while (s->room[i] == (i >= start && i < end ? want[i - start] : s->before[i]))
        i++;
    printf("%s of %zu bytes: ", s->name, s->len);
    if (i < start)
        printf("the guard byte %zu before its first is %u and was %u\n", start - i, s->room[i], s->before[i]);
    else if (i >= end)
        printf("the guard byte %zu behind its last is %u and was %u\n", i - end + 1, s->room[i], s->before[i]);
    else
        printf("byte %zu is %u and must be %u\n", i - start, s->room[i], want[i - start]);
    return 0;
}
