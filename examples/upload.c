/* Drains an upload of tree cores, reads it by sheets, and hands on all of it or nothing.
 *
 * The library has no tokenizer: the caller's own makes the token table, one row a token,
 * eight numbers a row. The rows here were made by the Rust wrapper (`table::from_tokens`).
 * falzheod.h says at falzheod_drain what a row is and which rules a table obeys. */
#include "falzheod.h"
#include <stdio.h>
#include <stdlib.h>
#include <string.h>

/* The numbers of a row, the kinds of row that are asked for below, and those of an entry. */
enum { KIND, PREFIX, PREFIX_LEN, LOCAL, LOCAL_LEN, VALUE, VALUE_LEN, POSITION, ROW_NUMBERS };
enum { START_TAG = 1, ATTRIBUTE = 2, END_TAG = 4, EMPTY_END = 5 };
enum { ENTRY_KIND, MEMBER, KEY, KEY_LEN, START, LENGTH };

#define BODY_WITH(remark)                                                              \
    "<upload team=\"north slope\"><remark>" remark "</remark>"                         \
    "<site code=\"LAE-3\"/><core id=\"17\"/><core id=\"18\"/></upload>"
#define BODY BODY_WITH("bark &amp; pith")

/* The same upload with a typing error in the remark. Its tokens stand where they stood, so that
 * it has the same rows. */
#define MISTYPED BODY_WITH("bark &amp, pith")

/* The rows up to where the last upload is cut. */
#define FRONT_ROWS                                    \
    1, 0, 0, 1,   6, 0,   0,  7,   /* <upload             */ \
    2, 0, 0, 8,   4, 14,  11, 26,  /* team="north slope"  */ \
    3, 0, 0, 0,   0, 0,   0,  27,  /* >                   */ \
    1, 0, 0, 28,  6, 0,   0,  34,  /* <remark             */ \
    3, 0, 0, 0,   0, 0,   0,  35,  /* >                   */ \
    6, 0, 0, 0,   0, 35,  15, 50,  /* bark &amp; pith     */ \
    4, 0, 0, 52,  6, 0,   0,  59,  /* </remark>           */ \
    1, 0, 0, 60,  4, 0,   0,  64   /* <site               */

static const uint32_t whole_rows[] = {
    FRONT_ROWS,
    2, 0, 0, 65,  4, 71,  5,  77,  /* code="LAE-3"        */
    5, 0, 0, 0,   0, 0,   0,  79,  /* />                  */
    1, 0, 0, 80,  4, 0,   0,  84,  /* <core               */
    2, 0, 0, 85,  2, 89,  2,  92,  /* id="17"             */
    5, 0, 0, 0,   0, 0,   0,  94,  /* />                  */
    1, 0, 0, 95,  4, 0,   0,  99,  /* <core               */
    2, 0, 0, 100, 2, 104, 2,  107, /* id="18"             */
    5, 0, 0, 0,   0, 0,   0,  109, /* />                  */
    4, 0, 0, 111, 6, 0,   0,  118, /* </upload>           */
};

/* The same upload cut short in the site's code, after 73 bytes. The tokenizer cannot go on
 * there, and says so by a row of kind 8. */
static const uint32_t cut_rows[] = {
    FRONT_ROWS,
    8, 0, 0, 0,   0, 0,   0,  73,  /* code="LA            */
};

/* A body and its token table. */
struct upload {
    const uint8_t *body;
    size_t body_len;
    const uint32_t *rows;
    size_t rows_len; /* counts numbers, not rows */
    uint32_t end;
};

#define COUNT(array) (sizeof(array) / sizeof((array)[0]))
static const struct upload whole = {(const uint8_t *)BODY, sizeof BODY - 1, whole_rows,
                                    COUNT(whole_rows), sizeof BODY - 1};
static const struct upload mistyped = {(const uint8_t *)MISTYPED, sizeof MISTYPED - 1, whole_rows,
                                       COUNT(whole_rows), sizeof MISTYPED - 1};
static const struct upload cut = {(const uint8_t *)BODY, 73, cut_rows, COUNT(cut_rows), 73};

/* A sheet, with what decides how much room its readings need. */
struct sheet {
    const uint8_t *bytes;
    size_t len;
    size_t attributes; /* how many members are attributes */
    size_t groups;     /* how many are flattened aggregates */
};

/* The bits of a member in a sheet's bytes, and the indexes of the members. */
enum { NAMED = 2, IN_ATTRIBUTE = 4, FLATTENED = 8, AGGREGATE = 16 };
enum { TEAM, REMARK, SITE, CORES, UPLOAD_MEMBERS };
enum { CODE, SITE_MEMBERS };

static const uint8_t upload_bytes[] = {
    0,                                                      /* no name but the shape's */
    6, 'u', 'p', 'l', 'o', 'a', 'd',                        /* the shape's name */
    UPLOAD_MEMBERS,                                         /* so many members follow */
    NAMED | IN_ATTRIBUTE, 4, 't', 'e', 'a', 'm',            /* the text of an attribute */
    NAMED, 6, 'r', 'e', 'm', 'a', 'r', 'k',                 /* the text of a child */
    NAMED | AGGREGATE, 4, 's', 'i', 't', 'e',               /* a child as a piece */
    NAMED | FLATTENED | AGGREGATE, 4, 'c', 'o', 'r', 'e',   /* all such children, one group */
};
static const uint8_t site_bytes[] = {
    0, 4, 's', 'i', 't', 'e', SITE_MEMBERS,
    NAMED | IN_ATTRIBUTE, 4, 'c', 'o', 'd', 'e',
};
static const struct sheet upload_sheet = {upload_bytes, sizeof upload_bytes, 1, 1};
static const struct sheet site_sheet = {site_bytes, sizeof site_bytes, 1, 0};

/* The room for a reading, and how much of it was written. */
struct reading {
    uint32_t *entries;
    size_t entries_len; /* counts numbers, not entries */
    uint8_t *texts;
    size_t texts_len;
    size_t count;
    size_t length;
};

struct part {
    const uint8_t *bytes;
    size_t len;
};

/* What is read of an upload. Its parts lie in the body and in the texts of both readings, so
 * these are kept as long as the parts are. */
struct taken {
    size_t failing_row;
    uint32_t cause;
    size_t place; /* of the `&`, where the cause is a reference */
    struct reading of_upload;
    struct reading of_site;
    uint32_t *site_rows;
    struct part members[UPLOAD_MEMBERS];
    struct part site_members[SITE_MEMBERS];
};

static const char *cause_in_words(uint32_t cause)
{
    switch (cause) {
    case FALZHEOD_CAUSE_TOKEN: return "the tokenizer could not go on";
    case FALZHEOD_CAUSE_MISMATCHED: return "an end tag of another name than what is open";
    case FALZHEOD_CAUSE_UNCLOSED: return "an element is still open at the end";
    case FALZHEOD_CAUSE_REPEATED: return "an attribute stands twice in its tag";
    case FALZHEOD_CAUSE_REFERENCE: return "a reference that XML does not have";
    default: return "no cause";
    }
}

/* Drains an upload, and keeps why it fails and where. A body that is not UTF-8 may have no rows, and
 * a table without rows passes the drain; so such a body is refused before, by the number that it
 * has with rows. */
static uint32_t drain(const struct upload *upload, struct taken *taken)
{
    if (!falzheod_is_utf8(upload->body, upload->body_len))
        return FALZHEOD_TABLE;
    return falzheod_drain(upload->body, upload->body_len, upload->rows, upload->rows_len,
                          upload->end, &taken->failing_row, &taken->cause, &taken->place);
}

/* Makes room that is always enough, so that FALZHEOD_NO_ROOM never comes.
 *
 * An attribute member writes one entry at most, and several may ask for the same attribute;
 * every other entry comes of an element of its own, which has a row (a group: of one or more).
 * No text is longer than what it is read from. So an attribute member writes at most as many
 * bytes as the body has, and so do all children together, since they do not overlap; a group
 * has its two tags besides. One more of each, so that nothing is lent as null. */
static int make_room(const struct upload *upload, const struct sheet *sheet, struct reading *room)
{
    size_t tags = sizeof "<__flat></__flat>" - 1;
    size_t entries = 1 + sheet->attributes + upload->rows_len / ROW_NUMBERS;
    room->entries_len = entries * FALZHEOD_ENTRY_NUMBERS;
    room->texts_len = 1 + (sheet->attributes + 1) * upload->body_len + sheet->groups * tags;
    room->entries = (uint32_t *)malloc(room->entries_len * sizeof *room->entries);
    room->texts = (uint8_t *)malloc(room->texts_len);
    return room->entries != NULL && room->texts != NULL;
}

/* Reads an upload by a sheet, at shape level `depth`: 0 for a whole upload, 1 for a piece of it.
 * The most is 128, as in the Rust wrapper's default settings. */
static uint32_t read_by(const struct upload *upload, const struct sheet *sheet, uint32_t depth,
                        struct reading *reading)
{
    const uint32_t flags = FALZHEOD_VALIDATE_DOCUMENT | FALZHEOD_VALIDATE_ROOT_NAME;
    if (!make_room(upload, sheet, reading))
        return FALZHEOD_NO_ROOM;
    return falzheod_read_struct(upload->body, upload->body_len, upload->rows, upload->rows_len,
                                upload->end, sheet->bytes, sheet->len, flags, 128, depth,
                                reading->entries, reading->entries_len, reading->texts,
                                reading->texts_len, &reading->count, &reading->length);
}

/* Keeps an entry as its member. Of several children with one name the last is kept. A group is
 * kept as it comes; to read it on, tokenize it, or move the rows of each sibling to its place
 * in it, between those of the two tags. */
static uint32_t take_entry(const uint32_t *entry, const struct upload *upload,
                           const struct reading *reading, struct part *members)
{
    struct part *member = &members[entry[MEMBER]];
    switch (entry[ENTRY_KIND]) {
    case FALZHEOD_ENTRY_PIECE: /* stands in the body, tags and all, nothing replaced */
        member->bytes = upload->body + entry[START];
        break;
    case FALZHEOD_ENTRY_TEXT:  /* its references are replaced, so it is a text of its own */
    case FALZHEOD_ENTRY_GROUP: /* siblings that need not stand side by side in the body */
        member->bytes = reading->texts + entry[START];
        break;
    case FALZHEOD_ENTRY_FAILED: /* the reading went on, but here one refuses all */
        return entry[START];
    }
    member->len = entry[LENGTH];
    return FALZHEOD_FINISHED;
}

/* Keeps all entries of a reading. Any that failed refuses them. */
static uint32_t take_entries(const struct upload *upload, const struct reading *reading,
                             struct part *members)
{
    uint32_t number = FALZHEOD_FINISHED;
    for (size_t at = 0; at < reading->count && number == FALZHEOD_FINISHED; at++) {
        const uint32_t *entry = reading->entries + at * FALZHEOD_ENTRY_NUMBERS;
        number = take_entry(entry, upload, reading, members);
    }
    return number;
}

/* A row counted from the first byte of a piece: the position, the start of each filled span and
 * that of each local name move. All else is 0 or a length, and stays. */
static void move_row(const uint32_t *row, uint32_t start, uint32_t *moved)
{
    memcpy(moved, row, ROW_NUMBERS * sizeof *row);
    moved[POSITION] -= start;
    if (row[PREFIX_LEN] > 0)
        moved[PREFIX] -= start;
    if (row[KIND] == START_TAG || row[KIND] == ATTRIBUTE || row[KIND] == END_TAG)
        moved[LOCAL] -= start;
    if (row[VALUE_LEN] > 0)
        moved[VALUE] -= start;
}

/* The rows of the piece that begins at `start`, of an upload that passed the drain: from its
 * start tag, the first row that ends past `start`, to the row that closes it. */
static size_t rows_of_piece(const struct upload *upload, uint32_t start, uint32_t *rows)
{
    size_t written = 0, open = 0;
    for (size_t at = 0; at < upload->rows_len; at += ROW_NUMBERS) {
        const uint32_t *row = upload->rows + at;
        if (row[POSITION] <= start)
            continue;
        move_row(row, start, rows + written);
        written += ROW_NUMBERS;
        if (row[KIND] == START_TAG)
            open++;
        else if (row[KIND] == END_TAG || row[KIND] == EMPTY_END)
            open--;
        if (open == 0)
            break;
    }
    return written;
}

/* Reads the site, a piece of the upload, by its own rows: nothing is tokenized again. That a
 * piece passes the drain is proved of an upload that passed; at depth 1 no reading asks it. */
static uint32_t read_site(const struct upload *upload, struct taken *taken)
{
    const struct part *piece = &taken->members[SITE];
    struct upload site = {piece->bytes, piece->len, NULL, 0, (uint32_t)piece->len};
    uint32_t number;
    taken->site_rows = (uint32_t *)malloc(upload->rows_len * sizeof *upload->rows);
    if (taken->site_rows == NULL)
        return FALZHEOD_NO_ROOM;
    site.rows = taken->site_rows;
    site.rows_len = rows_of_piece(upload, (uint32_t)(piece->bytes - upload->body),
                                  taken->site_rows);
    number = drain(&site, taken);
    if (number == FALZHEOD_FINISHED)
        number = read_by(&site, &site_sheet, 1, &taken->of_site);
    if (number == FALZHEOD_FINISHED)
        number = take_entries(&site, &taken->of_site, taken->site_members);
    return number;
}

/* All of an upload, or the number of what refuses it. Nothing is handed on in here: what a
 * refused reading wrote before it was refused is kept in `taken`, and goes no further. */
static uint32_t take(const struct upload *upload, struct taken *taken)
{
    uint32_t number;
    memset(taken, 0, sizeof *taken); /* so that what was never made may be given back */
    number = drain(upload, taken);
    if (number == FALZHEOD_FINISHED)
        number = read_by(upload, &upload_sheet, 0, &taken->of_upload);
    if (number == FALZHEOD_FINISHED)
        number = take_entries(upload, &taken->of_upload, taken->members);
    if (number == FALZHEOD_FINISHED && taken->members[SITE].bytes != NULL)
        number = read_site(upload, taken);
    return number;
}

static void give_back(struct taken *taken)
{
    free(taken->of_upload.entries);
    free(taken->of_upload.texts);
    free(taken->of_site.entries);
    free(taken->of_site.texts);
    free(taken->site_rows);
}

/* Hands on one part, which here means to show it. A member that the upload has not got is
 * passed over. */
static void hand_on(const char *name, const struct part *part)
{
    if (part->bytes != NULL)
        printf("  %-6s  %.*s\n", name, (int)part->len, (const char *)part->bytes);
}

/* Takes an upload, and hands on all of it if that finished. The answer is the number. */
static uint32_t take_and_hand_on(const struct upload *upload, struct taken *taken)
{
    uint32_t number = take(upload, taken);
    printf("%u bytes, %u rows: ", (unsigned)upload->body_len,
           (unsigned)(upload->rows_len / ROW_NUMBERS));
    if (number != FALZHEOD_FINISHED) {
        printf("refused with %u", (unsigned)number);
        if (number == FALZHEOD_ILL_FORMED)
            printf(", row %u: %s", (unsigned)taken->failing_row, cause_in_words(taken->cause));
        if (taken->cause == FALZHEOD_CAUSE_REFERENCE)
            printf(", at byte %u", (unsigned)taken->place);
        printf("\n  nothing is handed on\n");
        return number;
    }
    printf("finished\n");
    hand_on("team", &taken->members[TEAM]);
    hand_on("remark", &taken->members[REMARK]);
    hand_on("site", &taken->members[SITE]);
    hand_on("code", &taken->site_members[CODE]);
    hand_on("cores", &taken->members[CORES]);
    return number;
}

static int is(const struct part *part, const char *wanted)
{
    return part->bytes != NULL && part->len == strlen(wanted) &&
           memcmp(part->bytes, wanted, part->len) == 0;
}

/* Succeeds only if all uploads came out as they should, so that the example is a test, too. */
int main(void)
{
    struct taken of_whole, of_mistyped, of_cut;
    int right = take_and_hand_on(&whole, &of_whole) == FALZHEOD_FINISHED &&
                is(&of_whole.members[TEAM], "north slope") &&
                is(&of_whole.members[REMARK], "bark & pith") &&
                is(&of_whole.members[SITE], "<site code=\"LAE-3\"/>") &&
                is(&of_whole.site_members[CODE], "LAE-3") &&
                is(&of_whole.members[CORES],
                   "<__flat><core id=\"17\"/><core id=\"18\"/></__flat>");
    int found = take_and_hand_on(&mistyped, &of_mistyped) == FALZHEOD_ILL_FORMED &&
                of_mistyped.cause == FALZHEOD_CAUSE_REFERENCE &&
                MISTYPED[of_mistyped.place] == '&';
    int refused = take_and_hand_on(&cut, &of_cut) == FALZHEOD_ILL_FORMED &&
                  of_cut.cause == FALZHEOD_CAUSE_TOKEN && of_cut.failing_row == 8;
    give_back(&of_whole);
    give_back(&of_mistyped);
    give_back(&of_cut);
    return right && found && refused ? EXIT_SUCCESS : EXIT_FAILURE;
}
