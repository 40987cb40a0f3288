/*
 * Settings that a tool takes as words, in any order: NAME=VALUE, or the bare name of one that
 * takes no value. Of anything that is wrong one line on standard error says what, and what to
 * do; the status is then 1.
 */
#ifndef SETTINGS_H
#define SETTINGS_H

#include <stddef.h>
#include <stdint.h>

struct setting {
    const char *name;
    const char *due;   /* what to give for it */
    int bare;          /* it takes no value */
    const char *given; /* the text behind the =; null if the setting is not given */
};

/* What the tool of this name takes: so many settings. */
void settings_open(const char *tool, struct setting *all, size_t count);

/* One line, whatever the texts in it hold, and the end of the program. */
_Noreturn void die(const char *format, ...);

/* 1 if there is no argument, or one of them asks for help. */
int settings_help(int count, char **arguments);

/* A line for each setting, on standard error. */
void settings_print(void);

/* Sets what is given. */
void settings_collect(int count, char **arguments);

/* A part of a text that should be a number. */
struct item {
    const char *at;
    size_t len;
};

struct item item_up_to(const char *at, const char *ends);

/* How much of an item a message shows. */
int item_shown(struct item item);

/* Nothing but digits from a place of the item on, at least one. What does not fit 32 bits stays
 * above them, however long it is. */
uint64_t setting_digits(const struct setting *s, struct item item, size_t from);

/* The number of 32 bits that is given for a setting, or another one where it is not given. */
uint32_t setting_number(const struct setting *s, uint32_t otherwise);

/* The same, from the least to the most. */
uint32_t setting_from(const struct setting *s, uint32_t least, uint32_t most, uint32_t otherwise);

#endif
