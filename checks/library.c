/* Asks the auditor for checks/library.py: reads how often to make a request, its values and its files, each number in
 * eight bytes, and writes how many nanoseconds that took, the result, and the parts. */
#define _POSIX_C_SOURCE 199309L
#include "ira.h"

#include <stdio.h>
#include <time.h>

static uint64_t read_number(void) {
    uint64_t number;
    if (fread(&number, sizeof number, 1, stdin) != 1) exit(ferror(stdin) ? 1 : 0);
    return number;
}

static void write_number(uint64_t number) {
    fwrite(&number, sizeof number, 1, stdout);
}

static void *room_for(size_t size) {
    void *memory = malloc(size + 1);
    if (!memory) exit(2);
    return memory;
}

int main(void) {
    static struct ira_room room;
    for (;;) {
        uint64_t times = read_number(), count = read_number();
        uint64_t *values = (uint64_t *)room_for(count * sizeof *values);
        for (uint64_t i = 0; i < count; i++) values[i] = read_number();
        uint64_t pieces = read_number();
        size_t *sizes = (size_t *)room_for(pieces * sizeof *sizes);
        char **texts = (char **)room_for(pieces * sizeof *texts);
        struct ira_file *files = (struct ira_file *)room_for(pieces / 2 * sizeof *files);
        for (uint64_t i = 0; i < pieces; i++) sizes[i] = read_number();
        for (uint64_t i = 0; i < pieces; i++) {
            texts[i] = (char *)room_for(sizes[i]);
            if (fread(texts[i], 1, sizes[i], stdin) != sizes[i]) exit(1);
            texts[i][sizes[i]] = 0;
            if (i % 2) files[i / 2] = (struct ira_file){texts[i - 1], texts[i], sizes[i]};
        }
        struct timespec began, ended;
        clock_gettime(CLOCK_MONOTONIC, &began);
        while (times--) ira_ask(&room, values, count, files, pieces / 2);
        clock_gettime(CLOCK_MONOTONIC, &ended);
        write_number((uint64_t)(ended.tv_sec - began.tv_sec) * 1000000000 + ended.tv_nsec - began.tv_nsec);
        write_number(room.result);
        write_number(room.count);
        for (size_t i = 0; i < room.count; i++) write_number(room.parts[i].size);
        for (size_t i = 0; i < room.count; i++) fwrite(room.parts[i].text, 1, room.parts[i].size, stdout);
        fflush(stdout);
        for (uint64_t i = 0; i < pieces; i++) free(texts[i]);
        free(values);
        free(sizes);
        free(texts);
        free(files);
    }
}
