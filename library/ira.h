/* The auditor of Itai-Rodeh leader elections, called in process: what `ira` answers, prints and writes, without files
 * and threads. Link with libira.a, or with libira.so; they hold `ira_serve` and need memcpy, memmove and memset,
 * nothing else.
 *
 * What ira_serve answers is proved (crates/ira_web). What stands below it, ira_ask and ira_free, is C that most callers
 * would write, and tested. */
#ifndef IRA_H
#define IRA_H

#include <stddef.h>
#include <stdint.h>
#include <stdlib.h>
#include <string.h>

#ifdef __cplusplus
extern "C" {
#endif

/* What is asked for: the first value of a request. Behind it stand other values of its, and with it go files: logs are
 * those of a ring, in the order of its places.
 *
 * A moment is the end of the logs, without a value; or a cut, as 1 and so many events of each node; or the first that
 * meets a case of a question, as 2, or as 2 and the number of a case: then the question is the first file. */
enum ira_request {
    IRA_LOG,              /* the answer of one log alone; its log */
    IRA_LOGS,             /* the answer of logs; logs */
    IRA_EXPLAIN_LOG,      /* IRA_LOG, and why */
    IRA_EXPLAIN,          /* IRA_LOGS, and why */
    IRA_EXPLAIN_QUESTION, /* IRA_DECIDE, and why; the number of a case, or nothing for the first ones */
    IRA_EXPLAIN_CERT,     /* IRA_CHECK, and why */
    IRA_SHOW,             /* what the ring looks like; a moment; logs */
    IRA_EVENTS,           /* an order of all events through it; a moment; logs */
    IRA_DRAW,             /* a picture, as a file; the first and the last column, and a moment; logs */
    IRA_DECIDE,           /* what is found for the cases of a question, and a certificate as a file; nothing, or 1 for one
                           * line of all cases; a question, logs */
    IRA_CHECK,            /* the answer of all three; a question, a certificate, logs */
    IRA_PAIRS,            /* the question whether two nodes ever lead at once; how many nodes */
    IRA_UPGRADE,          /* the logs in version 2, as files; logs */
    IRA_MEND,             /* the longest consistent beginnings, as files; 1 where a node of whose log no whole head is
                           * left is taken for an initiator, else 0; what is left of logs, empty where nothing is */
    IRA_RUN,              /* how nodes ended, and their logs as files; how many nodes, how many of them are initiators,
                           * the seed, how many draws a node is given, the most records of a log, how many terms */
    IRA_PAGE,             /* as IRA_DRAW, a page to move in the picture */
    IRA_JSON,             /* before IRA_LOGS to IRA_EVENTS, IRA_DECIDE and IRA_CHECK: JSON in place of other lines */
    IRA_LEADERS,          /* before IRA_SHOW and IRA_EVENTS: how many nodes are to lead, and their places; or IRA_ANY */
    IRA_OVERVIEW,         /* several of these, with a reply each, as crates/ira_web says: 0, 1 with a question, 2 with a
                           * certificate too; the first and the last column, and a moment; these files, logs */
    IRA_ASK               /* the question that a sentence stands for, or of one that is refused what stands below its
                           * line, as a file; how many nodes; the sentence */
};

/* In place of how many nodes are to lead, and their places: any node. */
#define IRA_ANY UINT64_MAX

/* What comes of a request: a status of the program, or why there is none. */
enum ira_result {
    IRA_YES,           /* the answer is yes; it's printed, or written */
    IRA_NO,            /* the answer is no */
    IRA_REFUSED,       /* as the program refuses a command */
    IRA_OUT_OF_MEMORY, /* the room that was lent is too little */
    IRA_NO_REQUEST,    /* these are the values of no request, or the files aren't those of one: of other lengths, more
                        * or fewer than it needs, with a name that isn't UTF-8 */
    IRA_NO_ROOM        /* `out` or `sizes` has too little room for what comes of it */
};

/* Serves one request.
 *
 * `lent` is the address of `lent_size` bytes, aligned to 16, in which nothing else lies: memory for this one call.
 * `values` are the number of a request and its values. Of each file its name and its text stand in `bytes`, one after
 * another, and `lengths` has how many bytes each is. `out` and `sizes` are for what comes of it. None of the seven
 * overlaps another.
 *
 * A result below 3 is the status of what comes of the request: `out` begins with its parts, one after another, and
 * `sizes` with how many they are and how many bytes each is. The parts are what the program would print on standard
 * output, what on standard error, and each file that it would write. Those of several replies stand one after another,
 * in `sizes` too, and the status is that of the first. A result of IRA_NO_ROOM comes only where `out` and `sizes` have
 * no room for these. From 3 on nothing of `out` and `sizes` counts. When IRA_OUT_OF_MEMORY and IRA_NO_REQUEST come is
 * not proved.
 *
 * It keeps nothing between calls, so threads may call it side by side, each with memory of its own. */
uint32_t ira_serve(void *lent, size_t lent_size, const uint64_t *values, size_t values_count, const uint8_t *bytes,
                   size_t bytes_count, const size_t *lengths, size_t lengths_count, uint8_t *out, size_t out_size,
                   size_t *sizes, size_t sizes_count);

/* A file of a request: its name, and its text. */
struct ira_file {
    const char *name;
    const void *text;
    size_t size;
};

/* A part of what comes of a request. */
struct ira_part {
    const char *text;
    size_t size;
};

/* Memory for requests, and what came of the last one. Begin with one of zeroes, and end with ira_free; in between one
 * thread asks at a time. */
struct ira_room {
    uint32_t result;
    size_t count;                /* of parts, where the result is a status */
    struct ira_part parts[257];  /* standard output, standard error, and files; until the next request */
    size_t sizes[258];
    char *memory;
    size_t lent_size, out_size, bytes_size;
};

enum { IRA_FIRST_ROOM = 1 << 26 };

static inline void ira_free(struct ira_room *room) {
    free(room->memory);
    memset(room, 0, sizeof *room);
}

/* Asks with room that grows where it is too little, up to the system's memory: the result, which `room` has too, with
 * the parts of the first reply. What isn't touched of the room costs nothing where the system gives pages as they are
 * touched. */
static inline uint32_t ira_ask(struct ira_room *room, const uint64_t *values, size_t values_count,
                               const struct ira_file *files, size_t files_count) {
    size_t total = 0, at = 0, lent = room->lent_size, out = room->out_size, names = files_count * 2 * sizeof(size_t);
    for (size_t i = 0; i < files_count; i++) total += strlen(files[i].name) + files[i].size;
    if (lent < IRA_FIRST_ROOM) lent = out = IRA_FIRST_ROOM;
    while (lent < total) lent *= 2;
    for (;;) {
        /* the room that is lent, `out`, the lengths, and the bytes of the files */
        if (!room->memory || room->lent_size < lent || room->out_size < out || room->bytes_size < names + total) {
            ira_free(room);
            room->memory = (char *)malloc(lent + out + names + total);
            if (!room->memory) return room->result = IRA_OUT_OF_MEMORY;
            room->lent_size = lent;
            room->out_size = out;
            room->bytes_size = names + total;
        }
        size_t *lengths = (size_t *)(room->memory + lent + out);
        char *bytes = (char *)(lengths + 2 * files_count);
        at = 0;
        for (size_t i = 0; i < files_count; i++) {
            const void *pieces[2] = {files[i].name, files[i].text};
            lengths[2 * i] = strlen(files[i].name);
            lengths[2 * i + 1] = files[i].size;
            for (size_t k = 0; k < 2; k++) {
                if (lengths[2 * i + k]) memcpy(bytes + at, pieces[k], lengths[2 * i + k]);
                at += lengths[2 * i + k];
            }
        }
        room->result = ira_serve(room->memory, lent, values, values_count, (const uint8_t *)bytes, total, lengths,
                                 2 * files_count, (uint8_t *)room->memory + lent, out, room->sizes, 258);
        room->count = 0;
        if (room->result == IRA_OUT_OF_MEMORY && lent < (size_t)-1 / 8) lent *= 2;
        else if (room->result == IRA_NO_ROOM && out < (size_t)-1 / 8) out *= 2;
        else break;
    }
    if (room->result > IRA_REFUSED) return room->result;
    at = 0;
    for (; room->count < room->sizes[0]; room->count++) {
        room->parts[room->count].text = room->memory + lent + at;
        room->parts[room->count].size = room->sizes[room->count + 1];
        at += room->sizes[room->count + 1];
    }
    return room->result;
}

#ifdef __cplusplus
}
#endif

#endif
