/* Gauging while the machine runs: after each pair of linkages that was gauged the range of one bar so far is printed. A line of the text is a pair,
   lower upper class lower upper class: how far a lever moves for a step of the motor, then how far the bar moves for 1 mm of the lever. A line
   amounts FILE exchanges the wear amounts for those of a load, and # begins a comment. A line that is refused changes nothing, and the next one is
   read. Usage: running [FILE], or the lines on standard input. Valid as C++ too. */
#include <stdio.h>
#include <stdlib.h>
#include <string.h>
#include "coupling.h"
#include "coupling_sentences.h"

#define WORDS COUPLING_RUNNING_WORDS
#define PAIR_WORDS 6 /* of a line that is a pair */
#define BLANKS " \t\r\n"
#define DIGITS "0123456789"

static uint32_t value[WORDS]; /* the running entry */

static int is_decimal(const char *word)
{
    const char *digits = word + (*word == '-' || *word == '+');
    size_t whole = strspn(digits, DIGITS), point = digits[whole] == '.';
    size_t behind = point ? strspn(digits + whole + 1, DIGITS) : 0;
    return digits[whole + point + behind] == '\0' && whole + behind > 0 && whole + behind <= 15 && behind <= 9;
}

static int is_class(const char *word)
{
    size_t length = strlen(word);
    return length > 0 && length <= 9 && strspn(word, DIGITS) == length;
}

static uint32_t pattern_of(float number)
{
    uint32_t pattern;
    memcpy(&pattern, &number, sizeof pattern);
    return pattern;
}

/* Bounds are rounded outward, the lower one down and the upper one up, so that nothing of a reading is lost. The float next to the nearest one is a
   unit, 2^-149, further, rounded the same way. Whether the nearest one lies inside is told by the double: with so few digits as is_decimal admits,
   it equals a float only if the decimal does. */
static uint32_t lower(const char *word)
{
    double decimal = strtod(word, NULL);
    float nearest = (float)decimal;
    return nearest > decimal ? coupling_sub_down(pattern_of(nearest), 1) : pattern_of(nearest);
}

static uint32_t upper(const char *word)
{
    double decimal = strtod(word, NULL);
    float nearest = (float)decimal;
    return nearest < decimal ? coupling_add_up(pattern_of(nearest), 1) : pattern_of(nearest);
}

static uint32_t wear_class(const char *word)
{
    return (uint32_t)strtoul(word, NULL, 10);
}

static void show(void)
{
    float low, high;
    memcpy(&low, &value[COUPLING_RUNNING_LOWER], sizeof low);
    memcpy(&high, &value[COUPLING_RUNNING_UPPER], sizeof high);
    printf("pair %u: [%.9g, %.9g]\n", value[COUPLING_RUNNING_PAIRS], low, high);
}

/* Prints a refusal. Returns the exit status. */
static int tell(unsigned line, uint32_t r)
{
    printf("line %u: refused: %s\n", line, coupling_sentence(COUPLING_NUMBER(r)));
    return 1;
}

static int take(unsigned line, char **word)
{
    for (int i = 0; i < PAIR_WORDS; i++) {
        if (i % 3 == 2 ? is_class(word[i]) : is_decimal(word[i])) continue;
        printf("line %u: '%s' is no %s\n", line, word[i], i % 3 == 2 ? "wear class" : "decimal with at most 15 digits, 9 of them behind the point");
        return 1;
    }
    uint32_t r = coupling_running_take(value, WORDS, lower(word[0]), upper(word[1]), wear_class(word[2]),
                                       lower(word[3]), upper(word[4]), wear_class(word[5]));
    if (COUPLING_REFUSED(r)) return tell(line, r);
    show();
    return 0;
}

static int exchange(unsigned line, const char *name)
{
    uint8_t load[COUPLING_LOAD_BYTES + 1]; /* one byte more than a load has, so that a longer file is refused */
    FILE *file = fopen(name, "rb");
    if (!file) {
        printf("line %u: %s cannot be opened\n", line, name);
        return 1;
    }
    size_t load_len = fread(load, 1, sizeof load, file);
    fclose(file);
    uint32_t r = coupling_running_amounts(value, WORDS, load, load_len);
    if (COUPLING_REFUSED(r)) return tell(line, r);
    printf("amounts of %s\n", name);
    return 0;
}

/* A line of the text, as it was read. */
static int reading(unsigned line, char *text)
{
    char *word[PAIR_WORDS + 1]; /* one more, so that too many are told */
    size_t count = 0;
    text[strcspn(text, "#")] = '\0';
    for (char *next = strtok(text, BLANKS); next && count <= PAIR_WORDS; next = strtok(NULL, BLANKS)) word[count++] = next;
    if (count == 0) return 0;
    if (count == 2 && strcmp(word[0], "amounts") == 0) return exchange(line, word[1]);
    if (count == PAIR_WORDS) return take(line, word);
    printf("line %u: neither 'lower upper class lower upper class' nor 'amounts FILE'\n", line);
    return 1;
}

int main(int argc, char **argv)
{
    char text[1000];
    int status = 0;
    if (argc > 2) {
        printf("usage: running [FILE]\n");
        return 1;
    }
    FILE *in = argc == 2 ? fopen(argv[1], "r") : stdin;
    if (!in) {
        printf("%s cannot be opened\n", argv[1]);
        return 1;
    }
    setvbuf(stdout, NULL, _IOLBF, BUFSIZ); /* each range is seen at once, in a pipe too */
    coupling_running_start(value, WORDS);
    show();
    for (unsigned line = 1; fgets(text, sizeof text, in); line++) {
        if (strlen(text) == sizeof text - 1) {
            printf("line %u is too long, and nothing more is read\n", line);
            return 1;
        }
        status |= reading(line, text);
    }
    if (ferror(in)) printf("the lines cannot be read to their end\n");
    return status || ferror(in);
}
