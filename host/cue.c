/* A host in its shortest form: a cue is printed, painted and sent. caption/examples/cue.rs does the same in Rust. */
#include "caption.h"
#include <stdio.h>
#include <string.h>

static uint8_t record[CAPTION_RECORD_BYTES], memory[CAPTION_MEMORY_BYTES], panel[CAPTION_PANEL_BYTES];
static uint8_t font[2048]; /* the host's own, 16 bytes for each character */
#define SCREEN record, sizeof record, memory, sizeof memory
#define NONE (const uint8_t *)"", 0

/* what a host does to hand a line to its glass */
static void show(uint32_t y, uint32_t left, uint32_t right, const uint8_t *line) {
    printf("%u %u %u ", y, left, right);
    for (int byte = 0; byte < 20; byte++)
        printf("%02x", line[byte]);
    printf("\n");
}

int main(void) {
    memset(font, 0x7e, sizeof font);

    if (caption_open(SCREEN, 4096, 8192, CAPTION_V2, 0, 0, 0, 0, 0, 0, 0, 0, CAPTION_EDGE_CLAMP) ||
        caption_print(SCREEN, (const uint8_t *)"I was in the hall,", 18) || caption_newline(SCREEN) ||
        caption_print(SCREEN, (const uint8_t *)"not on the stair.", 17) ||
        caption_flush(SCREEN, NONE, font, sizeof font, NONE, NONE, NONE, NONE))
        return 1;
    for (caption_sent s; (s = caption_send(SCREEN, panel, sizeof panel, 0)).sent;)
        show(s.line, s.left, s.right, panel + 20 * s.line);
    return 0;
}
