/* Reads the emulator's log, a line for each executed instruction with its address and its function. For each pair of marks it
   writes how many instructions came between them, and how many of these were further turns of a string instruction, which
   have the address of the line before; then, indented, how many each function had. Built for the machine that runs it. */
#include <stdio.h>
#include <stdlib.h>
#include <string.h>

enum { LINE_MAX = 1024, NAME_MAX = 128, FUNCTIONS = 256, ADDRESS_MAX = 64 };

struct function {
    char name[NAME_MAX];
    unsigned long count;
};

struct tally {
    int counting;
    unsigned long instructions;
    unsigned long turns;
    size_t count;
    struct function functions[FUNCTIONS];
    struct function *last;
};

static struct tally tally;

static void clear(void)
{
    tally.instructions = 0;
    tally.turns = 0;
    tally.count = 0;
    tally.last = NULL;
}

static void tell(void)
{
    size_t i;

    printf("%lu %lu\n", tally.instructions, tally.turns);
    for (i = 0; i < tally.count; i++)
        printf("\t%lu\t%s\n", tally.functions[i].count, tally.functions[i].name);
}

static struct function *function_named(const char *name)
{
    size_t i;

    for (i = 0; i < tally.count; i++) {
        if (strcmp(tally.functions[i].name, name) == 0)
            return &tally.functions[i];
    }
    if (tally.count == FUNCTIONS) {
        fputs("tally: too many functions\n", stderr);
        exit(1);
    }
    tally.functions[i].count = 0;
    strcpy(tally.functions[i].name, name);
    tally.count++;
    return &tally.functions[i];
}

static void count(const char *name, int is_turn)
{
    if (tally.last == NULL || strcmp(tally.last->name, name) != 0)
        tally.last = function_named(name);
    tally.last->count++;
    tally.instructions++;
    tally.turns += is_turn != 0;
}

/* Takes a line apart: '.. [base/address/..] function'. 0 if it is none of an instruction. */
static int take_apart(char *line, char **address, char **name)
{
    char *open = strchr(line, '[');
    char *slash = open == NULL ? NULL : strchr(open, '/');
    char *end = slash == NULL ? NULL : strchr(slash + 1, '/');
    char *closed = end == NULL ? NULL : strchr(end, ']');

    if (closed == NULL || closed[1] != ' ')
        return 0;
    *end = '\0';
    *address = slash + 1;
    *name = closed + 2;
    (*name)[strcspn(*name, "\n")] = '\0';
    return strlen(*name) < NAME_MAX && strlen(*address) < ADDRESS_MAX;
}

/* At the entry to a mark. */
static void pass_mark(void)
{
    if (tally.counting)
        tell();
    clear();
    tally.counting = !tally.counting;
}

int main(void)
{
    static char line[LINE_MAX];
    char before[ADDRESS_MAX] = "";
    int was_mark = 0;

    while (fgets(line, sizeof line, stdin) != NULL) {
        char *address, *name;
        int is_mark;
        if (!take_apart(line, &address, &name))
            continue;
        is_mark = strcmp(name, "mark") == 0;
        if (is_mark && !was_mark)
            pass_mark();
        else if (!is_mark && tally.counting)
            count(name, strcmp(address, before) == 0);
        was_mark = is_mark;
        strcpy(before, address);
    }
    return fflush(stdout) != 0;
}
