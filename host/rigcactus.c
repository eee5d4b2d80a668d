/*
 * rigcactus: receipts of visitor passes, and the services of the library, from the command line. `rigcactus --help` says how it is used.
 *
 * A service, or several that belong together, has a row in the table of commands and a function that runs it.
 */
#include "io.h"
#include "moment.h"
#include "receipt.h"
#include "text.h"
#include "totals.h"
#include "words.h"
#include "wrong_time.h"

#include <inttypes.h>
#include <string.h>

/* What may follow the arguments of a command. */
struct options {
    int64_t offset;           /* --offset MINUTES, 0 if not given */
    size_t width;             /* --width BYTES, USUAL_WIDTH if not given */
    bool raw;                 /* --raw */
};

/* The options that a command takes, as a sum of these. --desk stands among the arguments, and not after them. */
enum { NO_OPTION = 0, TAKES_OFFSET = 1, TAKES_WIDTH = 2, TAKES_RAW = 4, TAKES_DESKS = 8 };

struct command {
    const char *name;
    const char *arguments;    /* as the usage text has them */
    const char *summary;      /* one line of the usage text */
    int argument_count;
    bool takes_more;          /* whether there may be more arguments than that */
    int taken_options;        /* which options it takes */
    int (*run)(int argument_count, char **arguments, const struct options *options);
};

/* ---- Instants ----------------------------------------------------------------------------------------------------- */

/* Writes the date and the time of a moment, without the fraction of its second. */
static void write_seconds(struct moment moment)
{
    printf("%04d-%02d-%02d %02d:%02d:%02d", moment.year, moment.month, moment.day, moment.hour, moment.minute, moment.second);
}

/* Writes a tick as clocks at an offset show it, with the offset if it is not 0, and with the fraction of its second if there is one. */
static void write_local(int64_t tick, int offset)
{
    struct moment moment = moment_at(tick, offset);
    int distance = offset < 0 ? -offset : offset;
    write_seconds(moment);
    if (moment.fraction != 0)
        printf(".%04d", moment.fraction);
    if (offset != 0)
        printf(" %c%02d:%02d", offset < 0 ? '-' : '+', distance / 60, distance % 60);
}

/* The smallest unit that a timestamp of a precision writes. */
static const char *unit_name(int precision)
{
    switch (precision) {
    case 4: return "year";
    case 6: return "month";
    case 8: return "day";
    case 10: return "hour";
    case 12: return "minute";
    case 14: return "second";
    case 15: return "tenth of a second";
    case 16: return "hundredth of a second";
    case 17: return "thousandth of a second";
    default: return "ten-thousandth of a second";
    }
}

/* ---- Refusals ----------------------------------------------------------------------------------------------------- */

/* Adds what follows a refusal in its line: after a colon what is wrong with the timestamp, if it is refused for that, else nothing. */
static void add_detail(struct text *text, int refusal, struct slice timestamp)
{
    if (!is_for_time(refusal))
        return;
    add(text, ": ");
    if (!add_wrong_time(text, refusal, timestamp))
        add_words(text, refusal_advice(refusal));
}

/* Adds the same for a record that is refused, with the timestamp in it that it is refused for. */
static void add_record_detail(struct text *text, int refusal, struct slice record)
{
    struct slice timestamp;
    find_wrong_time(record, refusal, &timestamp);
    add_detail(text, refusal, timestamp);
}

/* Says on standard error what is refused, and what follows that, and gives REFUSED back. */
static int say_detailed(int refusal, const struct text *detail)
{
    return say(REFUSED, "refused: %s (%d)%.*s", rigcactus_refusal_name(refusal), refusal, (int)detail->length, (const char *)detail->bytes);
}

/* ---- Desks -------------------------------------------------------------------------------------------------------- */

/* The desks that the words of a command name, in the order in which they are first named. */
struct desks {
    uint64_t numbers[RIGCACTUS_DESKS];
    size_t count;             /* 0 if none is named: then all files are of desk 1 */
};

static bool is_desk_option(const char *word)
{
    return strcmp(word, "--desk") == 0;
}

static int read_desk(const char *word, uint64_t *desk)
{
    if (!read_number(word, desk) || *desk < 1 || *desk > RIGCACTUS_DESKS)
        return say(BAD_USAGE, "DESK is 1 or 2, and not '%s'", word);
    return ACCEPTED;
}

/* Puts a desk after those that are named, if it is none of them. */
static void name_desk(struct desks *desks, uint64_t desk)
{
    for (size_t i = 0; i < desks->count; i++)
        if (desks->numbers[i] == desk)
            return;
    desks->numbers[desks->count++] = desk;
}

/* Reads which desks words name. If there are any, the first word does, so that no file is left without one. */
static int read_desks(int word_count, char **words, struct desks *desks)
{
    desks->count = 0;
    for (int i = 0; i < word_count; i++) {
        if (!is_desk_option(words[i]))
            continue;
        if (i > 0 && desks->count == 0)
            return say(BAD_USAGE, "it is not said which desk '%s' is of: name one before the first file too, or none at all", words[0]);
        i++;
        uint64_t desk;
        int status = read_desk(i < word_count ? words[i] : "", &desk);
        if (status != ACCEPTED)
            return status;
        name_desk(desks, desk);
    }
    return ACCEPTED;
}

/* ---- Commands ----------------------------------------------------------------------------------------------------- */

static int run_cut(int argument_count, char **arguments, const struct options *options)
{
    (void)argument_count;
    (void)options;
    uint64_t room;
    if (!read_number(arguments[0], &room))
        return say(BAD_USAGE, "ROOM is a number of bytes from 0 to 18446744073709551615, and not '%s'", arguments[0]);

    struct input input;
    int status = read_stream(stdin, "standard input", &input);
    if (status != ACCEPTED)
        return status;

    uint64_t answer = rigcactus_cut(input.bytes, input.length, room);
    if (rigcactus_refusal(answer) != RIGCACTUS_ACCEPTED)
        return say_refused(answer);
    fwrite(input.bytes, 1, rigcactus_length(answer), stdout);
    putchar('\n');
    return finish_output();
}

static int run_tick(int argument_count, char **arguments, const struct options *options)
{
    (void)argument_count;
    int64_t tick;
    struct slice timestamp = {(const uint8_t *)arguments[0], strlen(arguments[0])};
    uint64_t answer = rigcactus_tick(timestamp.bytes, timestamp.length, options->offset, &tick);
    if (rigcactus_refusal(answer) != RIGCACTUS_ACCEPTED) {
        struct text detail = {.length = 0};
        add_detail(&detail, rigcactus_refusal(answer), timestamp);
        return say_detailed(rigcactus_refusal(answer), &detail);
    }

    int precision = rigcactus_precision(answer);
    printf("tick       %" PRId64 "\n", tick);
    printf("precision  %d digits, to the %s\n", precision, unit_name(precision));
    printf("instant    ");
    struct moment moment = moment_at(tick, 0);
    write_seconds(moment);
    printf(".%04d UTC\n", moment.fraction);
    return finish_output();
}

/* Checks the record of a file, and writes a line that says what came of it. */
static int check_file(const char *name, int64_t offset)
{
    struct input input;
    int status = read_file(name, &input);
    if (status != ACCEPTED)
        return status;

    int refusal = rigcactus_refusal(rigcactus_check(input.bytes, input.length, offset));
    printf("%s: %s", name, rigcactus_refusal_name(refusal));
    if (refusal == RIGCACTUS_ACCEPTED) {
        putchar('\n');
        return ACCEPTED;
    }
    struct text detail = {.length = 0};
    add_record_detail(&detail, refusal, (struct slice){input.bytes, input.length});
    printf(" (%d)%.*s\n", refusal, (int)detail.length, (const char *)detail.bytes);
    return REFUSED;
}

/* Goes through all files. What ends worst decides how the program ends. */
static int run_check(int argument_count, char **arguments, const struct options *options)
{
    int worst = ACCEPTED;
    for (int i = 0; i < argument_count; i++) {
        int status = check_file(arguments[i], options->offset);
        worst = status > worst ? status : worst;
    }
    int status = finish_output();
    return status > worst ? status : worst;
}

/* Writes a bound of a stretch, and whether the instant there belongs to it. */
static void write_bound(int kind, int64_t tick, int offset, const char *unbounded)
{
    if (kind == RIGCACTUS_UNBOUNDED) {
        fputs(unbounded, stdout);
        return;
    }
    write_local(tick, offset);
    fputs(kind == RIGCACTUS_CLOSED ? " (included)" : " (not included)", stdout);
}

/* Writes the line of a stretch. */
static void write_stretch(struct rigcactus_stretch stretch, const struct options *options)
{
    if (options->raw) {
        printf("%d %" PRId64 " %d %" PRId64 "\n", stretch.low_kind, stretch.low_tick, stretch.high_kind, stretch.high_tick);
        return;
    }
    fputs("from ", stdout);
    write_bound(stretch.low_kind, stretch.low_tick, (int)options->offset, "the beginning of time");
    fputs(" to ", stdout);
    write_bound(stretch.high_kind, stretch.high_tick, (int)options->offset, "the end of time");
    putchar('\n');
}

/* Lists the set of a file, in a list that is long enough for every set. Gives the count of its stretches if it is accepted. */
static int list_file(const char *name, int64_t offset, uint8_t list[RIGCACTUS_MOST_LIST_BYTES], size_t *count)
{
    struct input input;
    int status = read_file(name, &input);
    if (status != ACCEPTED)
        return status;

    uint64_t answer = rigcactus_list(input.bytes, input.length, offset, list, RIGCACTUS_MOST_LIST_BYTES);
    if (rigcactus_refusal(answer) != RIGCACTUS_ACCEPTED) {
        struct text detail = {.length = 0};
        add_record_detail(&detail, rigcactus_refusal(answer), (struct slice){input.bytes, input.length});
        return say_detailed(rigcactus_refusal(answer), &detail);
    }
    *count = rigcactus_count(answer);
    return ACCEPTED;
}

static int run_list(int argument_count, char **arguments, const struct options *options)
{
    (void)argument_count;
    uint8_t list[RIGCACTUS_MOST_LIST_BYTES];
    size_t count;
    int status = list_file(arguments[0], options->offset, list, &count);
    if (status != ACCEPTED)
        return status;

    for (size_t i = 0; i < count; i++)
        write_stretch(rigcactus_stretch_at(list, i), options);
    if (count == 0 && !options->raw)
        puts("no times");
    return finish_output();
}

/* The line feed after the record is white space there: what is written can be read again. */
static int run_print(int argument_count, char **arguments, const struct options *options)
{
    (void)argument_count;
    uint8_t list[RIGCACTUS_MOST_LIST_BYTES];
    size_t count;
    int status = list_file(arguments[0], options->offset, list, &count);
    if (status != ACCEPTED)
        return status;

    uint8_t record[RIGCACTUS_MOST_PRINTED_BYTES];
    uint64_t answer = rigcactus_print(list, count * RIGCACTUS_STRETCH_BYTES, record, sizeof record);
    int refusal = rigcactus_refusal(answer);
    if (refusal != RIGCACTUS_ACCEPTED)
        return say(REFUSED, "refused: %s (%d). Tell the clinic: %s", rigcactus_refusal_name(refusal), refusal, refusal_advice(refusal));
    fwrite(record, 1, rigcactus_length(answer), stdout);
    putchar('\n');
    return finish_output();
}

/* The words for what a comparison answers. */
static const char *comparison_name(int comparison)
{
    switch (comparison) {
    case RIGCACTUS_YES: return "yes";
    case RIGCACTUS_NO: return "no";
    default: return "unknown";
    }
}

/* Says on standard error what a comparison refuses, which record that is, and its file. Gives REFUSED back. */
static int say_refused_record(uint64_t answer, const struct input inputs[2], char **names)
{
    int refusal = rigcactus_refusal(answer), index = rigcactus_refused_record(answer) == 1 ? 0 : 1;
    struct text detail = {.length = 0};
    add_record_detail(&detail, refusal, (struct slice){inputs[index].bytes, inputs[index].length});
    return say(REFUSED, "refused: %s (%d), the %s record, %s%.*s", rigcactus_refusal_name(refusal), refusal, index == 0 ? "first" : "second",
               names[index], (int)detail.length, (const char *)detail.bytes);
}

static int run_compare(int argument_count, char **arguments, const struct options *options)
{
    (void)argument_count;
    struct input inputs[2];
    for (int i = 0; i < 2; i++) {
        int status = read_file(arguments[i], &inputs[i]);
        if (status != ACCEPTED)
            return status;
    }
    uint64_t answer = rigcactus_compare(inputs[0].bytes, inputs[0].length, inputs[1].bytes, inputs[1].length, options->offset);
    if (rigcactus_refusal(answer) != RIGCACTUS_ACCEPTED)
        return say_refused_record(answer, inputs, arguments);
    puts(comparison_name(rigcactus_comparison(answer)));
    return finish_output();
}

/* Adds the record of a file to a table, and writes a line that says what came of it, with the desk before it if desks are named. */
static int add_file(const char *name, int64_t offset, uint64_t table[RIGCACTUS_TABLE_NUMBERS], uint64_t desk, bool is_named)
{
    struct input input;
    int status = read_file(name, &input);
    if (status != ACCEPTED)
        return status;

    struct slice record = {input.bytes, input.length};
    if (is_named)
        printf("desk %" PRIu64 ": ", desk);
    return print_added(table, desk, name, record, offset) == RIGCACTUS_ACCEPTED ? ACCEPTED : REFUSED;
}

/* Writes the totals of every desk that is named, with its number before them; where none is, those of desk 1 alone. */
static void print_reports(const uint64_t table[RIGCACTUS_TABLE_NUMBERS], const struct desks *desks)
{
    if (desks->count == 0)
        print_totals(table, 1);
    for (size_t i = 0; i < desks->count; i++) {
        printf("desk       %" PRIu64 "\n", desks->numbers[i]);
        print_totals(table, desks->numbers[i]);
    }
}

/*
 * Goes through all files as run_check does, each of the desk that is named last before it, and then writes the totals. A file that cannot be
 * read is in no count.
 */
static int run_totals(int argument_count, char **arguments, const struct options *options)
{
    struct desks desks;
    int worst = read_desks(argument_count, arguments, &desks);
    if (worst != ACCEPTED)
        return worst;

    uint64_t table[RIGCACTUS_TABLE_NUMBERS], desk = 1;
    rigcactus_totals_open(table);
    for (int i = 0; i < argument_count; i++) {
        if (is_desk_option(arguments[i])) {
            read_desk(arguments[++i], &desk);
            continue;
        }
        int status = add_file(arguments[i], options->offset, table, desk, desks.count > 0);
        worst = status > worst ? status : worst;
    }
    print_reports(table, &desks);
    int status = finish_output();
    return status > worst ? status : worst;
}

/* All four records are read before anything is printed, so that a receipt is printed to its end or not at all. */
static int run_receipt(int argument_count, char **arguments, const struct options *options)
{
    (void)argument_count;
    struct input inputs[RECEIPT_RECORDS];
    struct slice records[RECEIPT_RECORDS];
    for (int i = 0; i < RECEIPT_RECORDS; i++) {
        int status = read_file(arguments[i], &inputs[i]);
        if (status != ACCEPTED)
            return status;
        records[i] = (struct slice){inputs[i].bytes, inputs[i].length};
    }
    int refused = print_receipt(records, options->offset, options->width);
    int status = finish_output();
    return status == ACCEPTED && refused > 0 ? REFUSED : status;
}

static const struct command commands[] = {
    {"receipt", "NAME SUM PASS IDENTIFIER [--width BYTES] [--offset MINUTES]",
     "print a receipt from the records in four files: types EN, MO, a set of times, II", RECEIPT_RECORDS, false, TAKES_WIDTH | TAKES_OFFSET,
     run_receipt},
    {"cut", "ROOM < FILE", "print the longest beginning of FILE that is whole characters and fits ROOM bytes", 1, false, NO_OPTION, run_cut},
    {"tick", "TEXT [--offset MINUTES]", "print the tick of the timestamp TEXT, its precision, and its instant in UTC", 1, false, TAKES_OFFSET,
     run_tick},
    {"check", "FILE.. [--offset MINUTES]", "print for the record in each FILE whether it is accepted, or what it is refused for", 1, true,
     TAKES_OFFSET, run_check},
    {"list", "FILE [--offset MINUTES] [--raw]", "print the times that the set in FILE means, a line for each stretch", 1, false,
     TAKES_OFFSET | TAKES_RAW, run_list},
    {"print", "FILE [--offset MINUTES]", "print the times that the set in FILE means as a record that a clinic can read", 1, false, TAKES_OFFSET,
     run_print},
    {"compare", "FILE FILE [--offset MINUTES]", "print whether the records in both FILEs have the same value: yes, no or unknown", 2, false,
     TAKES_OFFSET, run_compare},
    {"totals", "[--desk DESK] FILE.. [--desk DESK FILE..].. [--offset MINUTES]",
     "add up the records in all FILEs, of type MO, by desk, and print a line for each and the total of each currency", 1, true,
     TAKES_DESKS | TAKES_OFFSET, run_totals},
};

static const size_t command_count = sizeof commands / sizeof commands[0];

/* ---- The program -------------------------------------------------------------------------------------------------- */

static void write_usage(FILE *to)
{
    fputs("usage: rigcactus COMMAND ARGUMENTS\n"
          "       rigcactus --help\n"
          "\n"
          "Commands:\n", to);
    for (size_t i = 0; i < command_count; i++)
        fprintf(to, "  %s %s\n      %s\n", commands[i].name, commands[i].arguments, commands[i].summary);
    fprintf(to,
            "\n"
            "FILE is read as it is, a line feed at its end included, up to %d bytes. TEXT is the argument's bytes.\n"
            "MINUTES is the agreed offset from UTC, -%d to %d, for timestamps that carry none; it is 0 if not given.\n"
            "BYTES is the width of the paper, %d to %d; it is %d if not given. receipt cuts the name to it, between whole characters, and\n"
            "writes times as clocks at the agreed offset show them. For a refused record it says what to tell the clinic.\n"
            "list writes times as clocks at that offset show them; with --raw as four numbers: low kind, low tick, high kind, high\n"
            "tick. Kinds are 0 unbounded, 1 not included, 2 included.\n"
            "print writes times in UTC, as one line: a set of type QSU_TS, with a term for each stretch. list reads the same times in it.\n"
            "totals reads FILEs in their order. It counts a record that is null or refused, and adds it to no total. Totals are exact.\n"
            "DESK is 1 or 2, and is named before FILEs of its own: each desk that is named, also with no FILE, has counts and totals of its\n"
            "own, in the order in which they are first named. With no --desk all FILEs are of desk 1, and no line says so.\n"
            "What is refused is named, with its number: by check and totals in the line of its FILE, by receipt in its place, else on\n"
            "standard error. A date, a clock or an offset that cannot be is named too, after DATE, CLOCK or ZONE.\n"
            "All of yes, no and unknown count as accepted, and so does a null record.\n"
            "\n"
            "Exit status: 0 accepted, 1 refused, 2 bad usage, 3 reading or writing failed.\n",
            RIGCACTUS_MOST_BYTES, RIGCACTUS_MOST_OFFSET, RIGCACTUS_MOST_OFFSET, LEAST_WIDTH, MOST_WIDTH, USUAL_WIDTH);
}

static const struct command *find_command(const char *name)
{
    for (size_t i = 0; i < command_count; i++)
        if (strcmp(commands[i].name, name) == 0)
            return &commands[i];
    return NULL;
}

/* Whether so many words can be a command's arguments. Where there may be many, none looks like an option, but --desk where it is taken. */
static bool fits(const struct command *command, int word_count, char **words)
{
    bool takes_desks = (command->taken_options & TAKES_DESKS) != 0;
    if (!command->takes_more)
        return word_count == command->argument_count;
    for (int i = 0; i < word_count; i++)
        if (strncmp(words[i], "--", 2) == 0 && !(takes_desks && is_desk_option(words[i])))
            return false;
    return word_count >= command->argument_count;
}

static int read_offset(const char *minutes, struct options *options)
{
    if (!read_signed_number(minutes, &options->offset))
        return say(BAD_USAGE, "MINUTES is a number, as 120 or -210, and not '%s'", minutes);
    return ACCEPTED;
}

static int read_width(const char *bytes, struct options *options)
{
    uint64_t width;
    if (!read_number(bytes, &width) || width < LEAST_WIDTH || width > MOST_WIDTH)
        return say(BAD_USAGE, "BYTES is a number from %d to %d, and not '%s'", LEAST_WIDTH, MOST_WIDTH, bytes);
    options->width = (size_t)width;
    return ACCEPTED;
}

static int read_raw(const char *name, struct options *options)
{
    (void)name;
    options->raw = true;
    return ACCEPTED;
}

/* An option: its name, how many words it is, and what reads the last of them. */
static const struct option {
    const char *name;
    int bit;
    int word_count;
    int (*read)(const char *word, struct options *options);
} option_table[] = {{"--offset", TAKES_OFFSET, 2, read_offset}, {"--width", TAKES_WIDTH, 2, read_width}, {"--raw", TAKES_RAW, 1, read_raw}};

/* Finds the option, one of these, that stands at the end of a command's words, after as many of them as it has arguments. */
static const struct option *last_option(const struct command *command, int bits, int word_count, char **words)
{
    for (size_t i = 0; i < sizeof option_table / sizeof option_table[0]; i++) {
        const struct option *option = &option_table[i];
        int first = word_count - option->word_count;
        if ((bits & option->bit) != 0 && first >= command->argument_count && strcmp(words[first], option->name) == 0)
            return option;
    }
    return NULL;
}

/* Runs a command on the words that follow its name. Options but --desk come last, in any order, each once. */
static int run(const struct command *command, int word_count, char **words)
{
    struct options options = {.width = USUAL_WIDTH};
    int bits = command->taken_options;
    const struct option *option;
    while ((option = last_option(command, bits, word_count, words)) != NULL) {
        int status = option->read(words[word_count - 1], &options);
        if (status != ACCEPTED)
            return status;
        word_count -= option->word_count;
        bits -= option->bit;
    }
    if (!fits(command, word_count, words))
        return say(BAD_USAGE, "usage: rigcactus %s %s", command->name, command->arguments);
    return command->run(word_count, words, &options);
}

int main(int argc, char **argv)
{
    if (argc < 2) {
        write_usage(stderr);
        return BAD_USAGE;
    }
    if (strcmp(argv[1], "--help") == 0) {
        write_usage(stdout);
        return fflush(stdout) == EOF ? FAILED : ACCEPTED;
    }
    const struct command *command = find_command(argv[1]);
    if (command == NULL)
        return say(BAD_USAGE, "no command '%s'; rigcactus --help lists them", argv[1]);
    return run(command, argc - 2, argv + 2);
}
