/* Runs the vectors of native calls, as vectors/reference/native_lines.py writes them out to standard
 * input: each call is compared in every field of its view, in what it writes, and in what it leaves
 * of its room. Each array and each room ends before a page that can't be touched; an empty one is
 * NULL in a second call. Prints a line for each function, and ends with 0 where all hold. C++ too. */
#include "tests.h"

/* How many arguments and fields a call has at most, how long a name is, and how many bytes an array
 * may have, which is more than any vector does. */
enum { MOST = 16, NAME = 64, BYTES = 1 << 23 };

/* An argument: a number, or items with how many they are. */
struct array {
    const void *items;
    size_t length;
};

struct argument {
    char name[NAME];
    unsigned long long number;
    struct array array;
};

struct said {
    char name[NAME];
    unsigned long long number;
};

/* A test: its arguments, its room, and what was returned. */
struct given {
    struct argument arguments[MOST];
    size_t arguments_count;
    void *room;
    size_t room_length;
    struct said returned[MOST];
    size_t returned_count;
};

static void stop(const char *what) {
    printf("not ok the lines are those of vectors\n    %s\n", what);
    exit(2);
}

static const struct argument *argument_of(const struct given *given, const char *name) {
    for (size_t i = 0; i < given->arguments_count; i++) {
        if (strcmp(given->arguments[i].name, name) == 0) {
            return &given->arguments[i];
        }
    }
    stop(name);
    return NULL;
}

static unsigned long long number_of(const struct given *given, const char *name) {
    return argument_of(given, name)->number;
}

static struct array array_of(const struct given *given, const char *name) {
    return argument_of(given, name)->array;
}

static void put_field(struct given *given, const char *name, unsigned long long number) {
    struct said *const said = &given->returned[given->returned_count++];
    snprintf(said->name, NAME, "%s", name);
    said->number = number;
}

#include "calls.h"

/* A page that can't be touched after as many bytes as an array may have: one for each argument, one
 * for what is expected, and one for the room. */
static uint8_t *ends[MOST + 2];

static int digit(int letter) {
    return letter >= 'a' ? letter - 'a' + 10 : letter - '0';
}

/* Puts the bytes of a word of hexadecimal before an end. */
static struct array bytes_before(uint8_t *end, const char *word) {
    const size_t length = *word == '-' ? 0 : strlen(word) / 2;
    uint8_t *const items = end - length;
    for (size_t i = 0; i < length; i++) {
        items[i] = (uint8_t)(16 * digit(word[2 * i]) + digit(word[2 * i + 1]));
    }
    const struct array made = {items, length};
    return made;
}

/* Puts the numbers of a text before an end, each of as many bytes. */
static struct array numbers_before(uint8_t *end, const char *text, size_t size) {
    size_t length = *text != '\0';
    for (const char *at = text; *at != '\0'; at++) {
        length += *at == ' ';
    }
    uint8_t *const items = end - size * length;
    for (size_t i = 0; i < length; i++) {
        char *rest;
        const uint64_t number = strtoull(text, &rest, 10);
        /* The machine has the lowest byte first. */
        memcpy(items + i * size, &number, size);
        text = rest + (*rest == ' ');
    }
    const struct array made = {items, length};
    return made;
}

/* The part of a line after its next word, which is ended. */
static char *after_word(char *line) {
    char *const space = strchr(line, ' ');
    if (space == NULL) {
        return line + strlen(line);
    }
    *space = '\0';
    return space + 1;
}

/* Takes a line that has an argument. */
static void take_argument(struct given *given, const char *kind, char *rest) {
    const size_t index = given->arguments_count++;
    struct argument *const argument = &given->arguments[index];
    char *const words = after_word(rest);
    snprintf(argument->name, NAME, "%s", rest);
    if (strcmp(kind, "bytes") == 0) {
        argument->array = bytes_before(ends[index], words);
    } else if (strcmp(kind, "numbers") == 0) {
        /* Weights have 64 bits, indices of signers 32. */
        const bool is_wide = strcmp(rest, "weights") == 0;
        argument->array = numbers_before(ends[index], words, is_wide ? 8 : 4);
    } else {
        argument->number = strtoull(words, NULL, 10);
    }
}

/* What a test expects, and how it is called. */
struct expected {
    char id[NAME];
    struct said fields[MOST];
    size_t fields_count;
    struct array written;
    size_t size;
};

/* Whether the room begins with what is expected, and is as it was after that. */
static bool is_room(const struct given *given, const struct expected *expected) {
    const size_t written = expected->written.length * expected->size;
    const size_t length = given->room_length * expected->size;
    const uint8_t *const room = (const uint8_t *)given->room;
    if (written > length || (written > 0 && memcmp(room, expected->written.items, written) != 0)) {
        return false;
    }
    size_t at = written;
    while (at < length && room[at] == 0xee) {
        at++;
    }
    return at == length;
}

static bool is_returned(const struct given *given, const struct expected *expected) {
    bool holds = given->returned_count == expected->fields_count;
    for (size_t i = 0; i < expected->fields_count && holds; i++) {
        holds = strcmp(given->returned[i].name, expected->fields[i].name) == 0 &&
                given->returned[i].number == expected->fields[i].number;
    }
    return holds;
}

/* Calls the function of a test, and compares all that comes of it. */
static bool holds_once(const char *name, struct given *given, const struct expected *expected) {
    given->returned_count = 0;
    if (given->room_length > 0) {
        memset(given->room, 0xee, given->room_length * expected->size);
    }
    return call_by_name(name, given) && is_returned(given, expected) && is_room(given, expected);
}

/* Tries a test, and again with NULL in the place of each empty array. */
static bool holds(struct given *given, const struct expected *expected) {
    char name[NAME];
    snprintf(name, NAME, "%s", expected->id);
    *strchr(name, '/') = '\0';
    bool is_right = holds_once(name, given, expected);
    for (size_t i = 0; i < given->arguments_count; i++) {
        if (given->arguments[i].array.length == 0) {
            given->arguments[i].array.items = NULL;
        }
    }
    given->room = given->room_length == 0 ? NULL : given->room;
    is_right = holds_once(name, given, expected) && is_right;
    if (!is_right) {
        printf("    %s:", expected->id);
        for (size_t i = 0; i < given->returned_count; i++) {
            printf(" %s %llu", given->returned[i].name, given->returned[i].number);
        }
        puts("");
    }
    return is_right;
}

/* Takes a line of a test; returns whether it is the last one. */
static bool take_line(char *line, struct given *given, struct expected *expected) {
    char *const rest = after_word(line);
    if (strcmp(line, "end") == 0) {
        return true;
    }
    if (strcmp(line, "test") == 0) {
        memset(given, 0, sizeof *given);
        memset(expected, 0, sizeof *expected);
        snprintf(expected->id, NAME, "%s", rest);
    } else if (strcmp(line, "room") == 0) {
        given->room_length = strtoull(rest, NULL, 10);
    } else if (strcmp(line, "field") == 0) {
        struct said *const field = &expected->fields[expected->fields_count++];
        char *const number = after_word(rest);
        snprintf(field->name, NAME, "%s", rest);
        field->number = strtoull(number, NULL, 10);
    } else if (strcmp(line, "written-bytes") == 0) {
        expected->size = 1;
        expected->written = bytes_before(ends[MOST], rest);
    } else if (strcmp(line, "written-numbers") == 0) {
        expected->size = sizeof(uint32_t);
        expected->written = numbers_before(ends[MOST], rest, sizeof(uint32_t));
    } else {
        take_argument(given, line, rest);
    }
    return false;
}

/* How many tests of each call there were, and how many failed. */
static size_t tried[sizeof calls / sizeof *calls], wrong[sizeof calls / sizeof *calls];

static void count(const char *id, bool is_right) {
    for (size_t i = 0; i < sizeof calls / sizeof *calls; i++) {
        const size_t length = strlen(calls[i]);
        if (strncmp(id, calls[i], length) == 0 && id[length] == '/') {
            tried[i]++;
            wrong[i] += !is_right;
            return;
        }
    }
    stop(id);
}

int main(void) {
    static struct given given;
    static struct expected expected;
    char *line = NULL;
    size_t room = 0;
    for (size_t i = 0; i < sizeof ends / sizeof *ends; i++) {
        ends[i] = before_end(BYTES) + BYTES;
    }
    for (ssize_t length; (length = getline(&line, &room, stdin)) > 0;) {
        line[length - 1] = '\0';
        if (take_line(line, &given, &expected)) {
            given.room = ends[MOST + 1] - given.room_length * expected.size;
            count(expected.id, holds(&given, &expected));
        }
    }
    free(line);
    for (size_t i = 0; i < sizeof calls / sizeof *calls; i++) {
        const bool is_right = tried[i] > 0 && wrong[i] == 0;
        printf("%s vectors of %s\n", is_right ? "ok" : "not ok", calls[i]);
        failed += !is_right;
    }
    return report();
}
