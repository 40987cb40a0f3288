#include "settings.h"

#include <stdarg.h>
#include <stdio.h>
#include <stdlib.h>
#include <string.h>

static const char *tool;
static struct setting *settings;
static size_t settings_count;

void settings_open(const char *tool_used, struct setting *all, size_t count)
{
    tool = tool_used;
    settings = all;
    settings_count = count;
}

_Noreturn void die(const char *format, ...)
{
    char line[400];
    va_list values;
    va_start(values, format);
    vsnprintf(line, sizeof line, format, values);
    va_end(values);
    for (char *at = line; *at != 0; at++)
        if ((unsigned char)*at < ' ' || *at == 127)
            *at = '?';
    fprintf(stderr, "%s: %s\n", tool, line);
    exit(1);
}

/* ---- the arguments */

int settings_help(int count, char **arguments)
{
    int help = count < 2;
    for (int i = 1; i < count; i++)
        help |= strcmp(arguments[i], "-h") == 0 || strcmp(arguments[i], "--help") == 0 ||
                strcmp(arguments[i], "help") == 0;
    return help;
}

void settings_print(void)
{
    for (size_t i = 0; i < settings_count; i++)
        fprintf(stderr, "  %-7s %s\n", settings[i].name, settings[i].due);
}

static struct setting *find(const char *argument, size_t len)
{
    for (size_t i = 0; i < settings_count; i++)
        if (strlen(settings[i].name) == len && strncmp(settings[i].name, argument, len) == 0)
            return &settings[i];
    die("there is no setting '%.40s'; %s help names them all", argument, tool);
}

void settings_collect(int count, char **arguments)
{
    for (int i = 1; i < count; i++) {
        size_t len = strcspn(arguments[i], "=");
        struct setting *s = find(arguments[i], len);
        int has_value = arguments[i][len] == '=';
        if (s->bare && has_value)
            die("%s takes no value; give %s", s->name, s->due);
        if (!s->bare && !has_value)
            die("%s has no value; write %s= and behind it %s", s->name, s->name, s->due);
        if (s->given != NULL)
            die("%s is given twice; give it once", s->name);
        s->given = arguments[i] + len + has_value;
    }
}

/* ---- numbers */

struct item item_up_to(const char *at, const char *ends)
{
    return (struct item){at, strcspn(at, ends)};
}

int item_shown(struct item item)
{
    return item.len < 40 ? (int)item.len : 40;
}

uint64_t setting_digits(const struct setting *s, struct item item, size_t from)
{
    uint64_t value = 0;
    size_t i = from;
    for (; i < item.len && item.at[i] >= '0' && item.at[i] <= '9'; i++)
        value = value > UINT32_MAX ? value : 10 * value + (uint64_t)(item.at[i] - '0');
    if (i == from || i < item.len)
        die("%s: '%.*s' is no number; give %s", s->name, item_shown(item), item.at, s->due);
    return value;
}

uint32_t setting_number(const struct setting *s, uint32_t otherwise)
{
    if (s->given == NULL)
        return otherwise;
    struct item item = item_up_to(s->given, "");
    uint64_t value = setting_digits(s, item, 0);
    if (value > UINT32_MAX)
        die("%s: %.*s is too large; give %s", s->name, item_shown(item), item.at, s->due);
    return (uint32_t)value;
}

uint32_t setting_from(const struct setting *s, uint32_t least, uint32_t most, uint32_t otherwise)
{
    uint32_t value = setting_number(s, otherwise);
    if (value < least || value > most)
        die("%s=%lu is out of range; give %s", s->name, (unsigned long)value, s->due);
    return value;
}
