#include "levels.h"

#include <inttypes.h>
#include <stdbool.h>
#include <stdio.h>
#include <string.h>

enum { TYPE_MISSING = 255, FACTOR_MISSING = -127, VALUE_MISSING = -2147483647 };

struct level {
    uint8_t type;
    int power;         /* the value is shown in 10^power of the unit */
    const char *unit;  /* the Manual's */
    const char *words; /* without a value */
    const char *form;  /* with one, in the place of #; "-" where a value means nothing */
};

static const struct level levels[] = {
#include "levels.rows"
};

enum { LEVELS = sizeof levels / sizeof levels[0] };

static const struct level *level_of(uint8_t type)
{
    int i = 0;
    while (i < LEVELS && levels[i].type != type) {
        i++;
    }
    return i < LEVELS ? &levels[i] : NULL;
}

static bool takes_value(const struct level *level)
{
    return strcmp(level->form, "-") != 0;
}

/* --- Numbers --- */

/* value / 10^factor */
struct decimal {
    int64_t value;
    int factor;
};

/* Without zeros at the end of a fraction; 0 has one form. */
static struct decimal shortened(struct decimal d)
{
    while (d.factor > 0 && d.value % 10 == 0) {
        d.value /= 10;
        d.factor--;
    }
    return d.value == 0 ? (struct decimal){0, 0} : d;
}

static void add_fraction(struct words *text, const char *digits, int after)
{
    int before = (int)strlen(digits) - after;
    add(text, "%.*s.%s", before, digits, digits + before);
}

/* Exactly: in digits and a point, or where that takes many zeros as 5e-100. */
static void add_decimal(struct words *text, struct decimal given)
{
    enum { MANY = 9 };
    struct decimal d = shortened(given);
    char digits[32];
    int64_t size = d.value < 0 ? -d.value : d.value;
    const char *sign = d.value < 0 ? "-" : "";
    if (d.factor > MANY || d.factor < -MANY) {
        add(text, "%" PRId64 "e%d", d.value, -d.factor);
    } else if (d.factor > 0) {
        snprintf(digits, sizeof digits, "%0*" PRId64, d.factor + 1, size);
        add(text, "%s", sign);
        add_fraction(text, digits, d.factor);
    } else {
        add(text, "%" PRId64 "%.*s", d.value, -d.factor, "000000000");
    }
}

/* --- A surface --- */

/* All ones is the code for "missing". */
static bool has_value(const struct buttresk_surface *s)
{
    return s->factor != FACTOR_MISSING && s->value != VALUE_MISSING;
}

static struct decimal value_of(const struct buttresk_surface *s, int power)
{
    return (struct decimal){s->value, s->factor + power};
}

/* One value, or two as those of one layer. */
static void add_values(struct words *text, struct decimal first, const struct decimal *second)
{
    add_decimal(text, first);
    if (second != NULL) {
        add(text, "%s", first.value < 0 || second->value < 0 ? " to " : "-");
        add_decimal(text, *second);
    }
}

/* The form, with values in the place of #. */
static void add_form(struct words *text, const char *form, struct decimal first,
                     const struct decimal *second)
{
    const char *place = strchr(form, '#');
    add(text, "%.*s", (int)(place - form), form);
    add_values(text, first, second);
    add(text, "%s", place + 1);
}

/* A value that means nothing by the table is 0 or missing as a rule; another one is not kept
   back. */
static void add_words(struct words *text, const struct level *level,
                      const struct buttresk_surface *s)
{
    if (has_value(s) && takes_value(level)) {
        add_form(text, level->form, value_of(s, level->power), NULL);
    } else if (has_value(s) && s->value != 0) {
        add(text, "%s, value ", level->words);
        add_decimal(text, value_of(s, 0));
    } else {
        add(text, "%s", level->words);
    }
}

static void add_surface(struct words *text, const struct buttresk_surface *s)
{
    const struct level *level = level_of(s->type);
    if (level != NULL) {
        add_words(text, level, s);
    } else if (has_value(s)) {
        add(text, "surface type %u, value ", s->type);
        add_decimal(text, value_of(s, 0));
    } else {
        add(text, "surface type %u", s->type);
    }
}

/* --- Both --- */

/* Two values of one type, which is named once. */
static bool is_layer(const struct buttresk_surfaces_field *f)
{
    const struct level *level = level_of(f->first.type);
    return f->first.type == f->second.type && has_value(&f->first) && has_value(&f->second) &&
           (level == NULL || takes_value(level));
}

static void add_layer(struct words *text, const struct buttresk_surfaces_field *f)
{
    const struct level *level = level_of(f->first.type);
    int power = level == NULL ? 0 : level->power;
    struct decimal first = value_of(&f->first, power), second = value_of(&f->second, power);
    if (level != NULL) {
        add_form(text, level->form, first, &second);
    } else {
        add(text, "surface type %u, values ", f->first.type);
        add_values(text, first, &second);
    }
}

/* One end of a layer may be missing. */
static void add_end(struct words *text, const struct buttresk_surface *surface)
{
    if (surface->type == TYPE_MISSING) {
        add(text, "-");
    } else {
        add_surface(text, surface);
    }
}

void add_level(struct words *text, const struct buttresk_surfaces_field *surfaces)
{
    const struct buttresk_surface *first = &surfaces->first, *second = &surfaces->second;
    if (!surfaces->known || (first->type == TYPE_MISSING && second->type == TYPE_MISSING)) {
        add(text, "-");
    } else if (is_layer(surfaces)) {
        add_layer(text, surfaces);
    } else {
        add_end(text, first);
        if (second->type != TYPE_MISSING) {
            add(text, " to ");
            add_end(text, second);
        }
    }
}
