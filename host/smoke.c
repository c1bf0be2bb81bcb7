/* A small host: links libcaption.a and shows that the calls of the header are there and do what it says. main goes through a life of the screen: open, a point and
   its line on a panel, every refusal of every call, a bitmap by both painters, a flush, sends until idle, four panels at paces of their own, text, cursor and modes,
   lines that stop at the edge, a glass controller by hand and driven. Prints what it sees and ends with "ok"; the exit status is 0 only then. What it tries is a
   sample: the proofs and compare/ cover the rest. */
#include "caption.h"
#include <stdio.h>
#include <string.h>

/* the buffers that a host owns, and copies of them to see what a call changed */
static uint8_t rec[CAPTION_RECORD_BYTES], memory[CAPTION_MEMORY_BYTES], panels[CAPTION_PANELS][CAPTION_PANEL_BYTES];
static uint8_t rec_was[CAPTION_RECORD_BYTES], memory_was[CAPTION_MEMORY_BYTES], panels_were[CAPTION_PANELS][CAPTION_PANEL_BYTES];
/* those of a glass controller, whose panel is panels[1], and of its line driver */
static uint8_t registers[CAPTION_REGISTERS], image[CAPTION_PANEL_BYTES];
static uint8_t registers_were[CAPTION_REGISTERS], image_was[CAPTION_PANEL_BYTES];
static int failures;

static void keep(void) {
    memcpy(rec_was, rec, sizeof rec);
    memcpy(memory_was, memory, sizeof memory);
    memcpy(panels_were, panels, sizeof panels);
    memcpy(registers_were, registers, sizeof registers);
    memcpy(image_was, image, sizeof image);
}

static void expect(const char *what, int right) {
    if (!right) {
        printf("FAILED: %s\n", what);
        failures++;
    }
}

/* code is n, and no byte of the buffers changed since keep() */
static void refused(const char *what, uint32_t code, uint32_t n) {
    expect(what, code == n && !memcmp(rec_was, rec, sizeof rec) && !memcmp(memory_was, memory, sizeof memory) &&
                     !memcmp(panels_were, panels, sizeof panels) && !memcmp(registers_were, registers, sizeof registers) &&
                     !memcmp(image_was, image, sizeof image));
}

/* buffers as the calls take them, pointer and length; LESS_..: a byte too few. A pointer is never null, also at length 0 */
#define R rec, sizeof rec
#define M memory, sizeof memory
#define P(k) panels[k], sizeof panels[k]
#define REGISTERS registers, sizeof registers
#define IMAGE image, sizeof image
#define OPEN(r, m, g, t, v, e) caption_open(r, m, g, t, v, 0, 0, 0, 0, 0, 0, 0, 0, e)
#define LESS_RECORD rec, sizeof rec - 1
#define LESS_MEMORY memory, sizeof memory - 1
#define LESS_PANEL panels[1], sizeof panels[1] - 1
#define LESS_REGISTERS registers, sizeof registers - 1
#define LESS_IMAGE image, sizeof image - 1
#define NOTHING (const uint8_t *)"", 0
#define NO_FONTS NOTHING, NOTHING, NOTHING, NOTHING

/* caption_paint_bitmap or caption_paint_bitmap_by_bytes */
typedef uint32_t painter(uint8_t *, size_t, uint8_t *, size_t, uint16_t, int32_t, int32_t, uint8_t, uint8_t, uint8_t);

static void bitmap_refusals(painter *paint) {
    refused("bitmap 1", paint(R, LESS_MEMORY, 65535, 0, 0, 9, 1, 9), 1);
    refused("bitmap 4", paint(R, M, 65535, 0, 0, 9, 1, 5), 4);
    refused("bitmap 4", paint(R, M, 65535, 0, 0, 0, 0, 5), 4);
    refused("bitmap 5", paint(R, M, 65535, 0, 0, 9, 1, 4), 5);
}

static void controller_refusals(void) {
    refused("write 1", caption_controller_write(LESS_REGISTERS, P(1), 8, 0), 1);
    refused("write 1", caption_controller_write(REGISTERS, LESS_PANEL, 8, 0), 1);
    refused("write 10, no such register", caption_controller_write(REGISTERS, P(1), 8, 0), 10);
    refused("write 10, status", caption_controller_write(REGISTERS, P(1), CAPTION_REGISTER_STATUS, 0), 10);
    refused("write 10, command", caption_controller_write(REGISTERS, P(1), CAPTION_REGISTER_COMMAND, 3), 10);
    refused("write 10, enable", caption_controller_write(REGISTERS, P(1), CAPTION_REGISTER_ENABLE, 2), 10);
    refused("write 10, data", caption_controller_write(REGISTERS, P(1), CAPTION_REGISTER_DATA, 0), 10);
    refused("write 10, no byte to send", caption_controller_write(REGISTERS, P(1), CAPTION_REGISTER_COMMAND, CAPTION_COMMAND_LINE), 10);
    refused("read 1", caption_controller_read(LESS_REGISTERS, P(1), 8).code, 1);
    refused("read 1", caption_controller_read(REGISTERS, LESS_PANEL, 8).code, 1);
    refused("read 10", caption_controller_read(REGISTERS, P(1), 8).code, 10);
    refused("drive 1", caption_drive_line(LESS_RECORD, M, REGISTERS, P(1), IMAGE, 9).code, 1);
    refused("drive 1", caption_drive_line(R, LESS_MEMORY, REGISTERS, P(1), IMAGE, 9).code, 1);
    refused("drive 1", caption_drive_line(R, M, LESS_REGISTERS, P(1), IMAGE, 9).code, 1);
    refused("drive 1", caption_drive_line(R, M, REGISTERS, LESS_PANEL, IMAGE, 9).code, 1);
    refused("drive 1", caption_drive_line(R, M, REGISTERS, P(1), LESS_IMAGE, 9).code, 1);
    refused("drive 9", caption_drive_line(R, M, REGISTERS, P(1), IMAGE, 4).code, 9);
}

/* Each refusal of each call but STATE and GLYPH, in the order of its tests. Where a call has several, what it is told is wrong for the later ones too (mode 9 with a
   short memory), so that the order is seen. What a controller refuses while it is busy is seen by hand. */
static void refusals(void) {
    keep();
    refused("open 1", OPEN(LESS_RECORD, M, 4096, 8192, 1, 0), 1);
    refused("open 1", OPEN(R, LESS_MEMORY, 4096, 8192, 1, 0), 1);
    refused("open 3", OPEN(R, M, 63936, 8192, 1, 0), 3);
    refused("open 3", OPEN(R, M, 4096, 65436, 1, 0), 3);
    refused("open 3", OPEN(R, M, 4096, 5695, 1, 0), 3);
    refused("open 4", OPEN(R, M, 4096, 8192, 2, 0), 4);
    refused("open 4", OPEN(R, M, 4096, 8192, 1, 2), 4);
    refused("open 3", OPEN(R, M, 63936, 8192, 1, 2), 3);
    refused("reset 1", caption_reset(LESS_RECORD, M), 1);
    refused("point 1", caption_draw_point(R, LESS_MEMORY, 0, 0, 9), 1);
    refused("point 4", caption_draw_point(R, M, 0, 0, 4), 4);
    refused("line 1", caption_draw_line(R, LESS_MEMORY, 0, 0, 1, 1, 9), 1);
    refused("line 4", caption_draw_line(R, M, 0, 0, 1, 1, 4), 4);
    refused("box 1", caption_draw_box(R, LESS_MEMORY, 0, 0, 1, 1, 0, 9), 1);
    refused("box 4", caption_draw_box(R, M, 0, 0, 1, 1, 2, 0), 4);
    refused("box 4", caption_draw_box(R, M, 0, 0, 1, 1, 0, 4), 4);
    refused("circle 1", caption_draw_circle(LESS_RECORD, M, 0, 0, 200, 9, 9), 1);
    refused("circle 4", caption_draw_circle(R, M, 0, 0, 200, 2, 0), 4);
    refused("circle 6", caption_draw_circle(R, M, 0, 0, 128, 0, 0), 6);
    refused("ellipse 1", caption_draw_ellipse(R, LESS_MEMORY, 0, 0, 200, 1, 9, 9), 1);
    refused("ellipse 4", caption_draw_ellipse(R, M, 0, 0, 200, 1, 0, 4), 4);
    refused("ellipse 6", caption_draw_ellipse(R, M, 0, 0, 1, 128, 1, 3), 6);
    refused("check 1", caption_check_point(R, LESS_MEMORY, 0, 0).code, 1);
    bitmap_refusals(caption_paint_bitmap);
    bitmap_refusals(caption_paint_bitmap_by_bytes);
    refused("print 1", caption_print(R, LESS_MEMORY, (const uint8_t *)"a", 1), 1);
    refused("newline 1", caption_newline(LESS_RECORD, M), 1);
    refused("cls 1", caption_cls(R, LESS_MEMORY), 1);
    refused("flush 1", caption_flush(R, LESS_MEMORY, NO_FONTS, NOTHING, NOTHING), 1);
    refused("flush 1", caption_flush(R, M, NO_FONTS, rec, 7, NOTHING), 1);
    refused("poke 1", caption_write_byte(LESS_RECORD, M, 4096, 1), 1);
    refused("get row 1", caption_get_row(LESS_RECORD).code, 1);
    refused("get column 1", caption_get_column(LESS_RECORD).code, 1);
    refused("set row 1", caption_set_row(LESS_RECORD, 9), 1);
    refused("set row 4", caption_set_row(R, 5), 4);
    refused("set column 1", caption_set_column(LESS_RECORD, 99), 1);
    refused("set column 4", caption_set_column(R, 20), 4);
    refused("screen mode 1", caption_set_screen_mode(LESS_RECORD, M, 9), 1);
    refused("screen mode 4", caption_set_screen_mode(R, M, 2), 4);
    refused("print mode 1", caption_set_print_mode(LESS_RECORD, 9), 1);
    refused("print mode 4", caption_set_print_mode(R, 3), 4);
    refused("blink 1", caption_blink_cursor(R, LESS_MEMORY), 1);
    refused("clear cursor 1", caption_clear_cursor(LESS_RECORD, M), 1);
    refused("dirty 1", caption_take_dirty_area(LESS_RECORD).code, 1);
    refused("send 1", caption_send(R, M, panels[3], sizeof panels[3] - 1, 9).code, 1);
    refused("send 1", caption_send(rec, 170, M, P(0), 9).code, 1);
    refused("send 9", caption_send(R, M, P(3), 4).code, 9);
    refused("send 9", caption_send(R, M, P(3), 255).code, 9);
    controller_refusals();
}

/* STATE, by a row that no screen has: every call but open, which does not read the old record, refuses it, before it looks at the numbers that it is told. So does a
   send, to whatever panel, with a rectangle of panel 3 that ends left of its beginning. */
static void broken_record(void) {
    rec[CAPTION_AT_ROW] = 5;
    keep();
    refused("reset 2", caption_reset(R, M), 2);
    refused("point 2", caption_draw_point(R, M, 0, 0, 9), 2);
    refused("line 2", caption_draw_line(R, M, 0, 0, 1, 1, 9), 2);
    refused("box 2", caption_draw_box(R, M, 0, 0, 1, 1, 9, 9), 2);
    refused("circle 2", caption_draw_circle(R, M, 0, 0, 200, 9, 9), 2);
    refused("ellipse 2", caption_draw_ellipse(R, M, 0, 0, 200, 1, 9, 9), 2);
    refused("check 2", caption_check_point(R, M, 0, 0).code, 2);
    refused("bitmap 2", caption_paint_bitmap(R, M, 65535, 0, 0, 9, 1, 9), 2);
    refused("bitmap by bytes 2", caption_paint_bitmap_by_bytes(R, M, 65535, 0, 0, 9, 1, 9), 2);
    refused("print 2", caption_print(R, M, (const uint8_t *)"a", 1), 2);
    refused("newline 2", caption_newline(R, M), 2);
    refused("cls 2", caption_cls(R, M), 2);
    refused("flush 2", caption_flush(R, M, NO_FONTS, NOTHING, NOTHING), 2);
    refused("poke 2", caption_write_byte(R, M, 4096, 1), 2);
    refused("get row 2", caption_get_row(R).code, 2);
    refused("get column 2", caption_get_column(R).code, 2);
    refused("set row 2", caption_set_row(R, 9), 2);
    refused("set column 2", caption_set_column(R, 99), 2);
    refused("screen mode 2", caption_set_screen_mode(R, M, 9), 2);
    refused("print mode 2", caption_set_print_mode(R, 9), 2);
    refused("blink 2", caption_blink_cursor(R, M), 2);
    refused("clear cursor 2", caption_clear_cursor(R, M), 2);
    refused("dirty 2", caption_take_dirty_area(R).code, 2);
    refused("send 2", caption_send(R, M, P(0), 9).code, 2);
    refused("drive 2", caption_drive_line(R, M, REGISTERS, P(1), IMAGE, 9).code, 2);
    rec[CAPTION_AT_ROW] = 0;
    rec[CAPTION_AT_PANEL_3] = 161;
    keep();
    refused("send 2, panel 3", caption_send(R, M, P(0), 0).code, 2);
    rec[CAPTION_AT_PANEL_3] = 0;
}

/* STATE, by a register that no controller has so; the last is busy with no byte to come. Every call of the controller, a reset too, and the driver's refuse it. The
   host sets the registers to zeros. */
static void broken_registers(void) {
    static const uint8_t broken[][2] = {{CAPTION_REGISTER_COMMAND, 3},
                                        {CAPTION_REGISTER_STATUS, 4},
                                        {CAPTION_REGISTER_ENABLE, 2},
                                        {CAPTION_REGISTER_RESET, 1},
                                        {CAPTION_REGISTER_STATUS, CAPTION_STATUS_BUSY}};
    for (int i = 0; i < 5; i++) {
        registers[broken[i][0]] = broken[i][1];
        keep();
        refused("write 2", caption_controller_write(REGISTERS, P(1), 8, 0), 2);
        refused("reset 2", caption_controller_write(REGISTERS, P(1), CAPTION_REGISTER_RESET, 0), 2);
        refused("read 2", caption_controller_read(REGISTERS, P(1), 8).code, 2);
        refused("drive 2", caption_drive_line(R, M, REGISTERS, P(1), IMAGE, 9).code, 2);
        memset(registers, 0, sizeof registers);
    }
}

/* Byte 0x81 copied at (-1, 0) over a whole byte: pixel 6 set, 0-5 cleared, 7 as it was. A bitmap that lies off the screen or has zero size changes nothing, and a
   source may end with memory's last byte. The host writes the source itself: it lies outside the screen. */
static void bitmap(painter *paint) {
    memory[9000] = 0x81;
    expect("poke", caption_write_byte(R, M, 4096, 0xff) == 0);
    caption_take_dirty_area(R);
    expect("bitmap", paint(R, M, 9000, -1, 0, 8, 1, 0) == 0 && memory[4096] == 3);
    caption_area dirty = caption_take_dirty_area(R);
    expect("its dirty", dirty.left == 0 && dirty.top == 0 && dirty.right == 7 && dirty.bottom == 1);
    keep();
    refused("nothing painted", paint(R, M, 9000, INT32_MAX, 0, 8, 1, 0), 0);
    refused("zero size", paint(R, M, 65535, 0, 0, 0, 9, 4), 0);
    expect("source at the end", paint(R, M, 65534, 300, 0, 9, 1, 0) == 0);
}

/* Both painters leave the same bytes of record and memory. The buffers are then as they were. */
static void painted_alike(uint16_t address, int32_t x, int32_t y, uint8_t width, uint8_t height, uint8_t mode) {
    static uint8_t rec_by_pixels[CAPTION_RECORD_BYTES], memory_by_pixels[CAPTION_MEMORY_BYTES];
    keep();
    expect("by pixels", caption_paint_bitmap(R, M, address, x, y, width, height, mode) == 0);
    memcpy(rec_by_pixels, rec, sizeof rec);
    memcpy(memory_by_pixels, memory, sizeof memory);
    memcpy(rec, rec_was, sizeof rec);
    memcpy(memory, memory_was, sizeof memory);
    expect("by bytes", caption_paint_bitmap_by_bytes(R, M, address, x, y, width, height, mode) == 0);
    expect("alike", !memcmp(rec_by_pixels, rec, sizeof rec) && !memcmp(memory_by_pixels, memory, sizeof memory));
    memcpy(rec, rec_was, sizeof rec);
    memcpy(memory, memory_was, sizeof memory);
}

/* Sources apart from the screen, across its first byte, on it and at the end of memory, at places around a byte, in every mode. */
static void both_painters(void) {
    for (int i = 0; i < CAPTION_MEMORY_BYTES; i++)
        memory[i] = (uint8_t)(i * 37 + i / 251);
    static const uint16_t addresses[] = {9000, 3996, 4097, 65354};
    for (int a = 0; a < 4; a++)
        for (int x = -9; x <= 9; x++)
            for (uint8_t mode = 0; mode < 5; mode++)
                painted_alike(addresses[a], x, x / 4, 40 + x, 26, mode);
    painted_alike(9000, 0, 0, 160, 80, 0);
    painted_alike(3996, 0, 0, 255, 80, 4);
    memset(memory, 0, sizeof memory);
}

/* Text shows after a flush. "a" in the first cell: refused while the font lacks its last byte, painted with it; an empty text needs no font. In Text the rest of the
   screen is cleared, and all of it is marked. */
static void flush(void) {
    static uint8_t font[98 * 16];
    font[97 * 16] = 0x5a;
    expect("a poked text", caption_write_byte(R, M, 8192, 97) == 0);
    keep();
    refused("flush 7", caption_flush(R, M, NOTHING, font, sizeof font - 1, NOTHING, NOTHING, NOTHING, NOTHING), 7);
    expect("flush", caption_flush(R, M, NOTHING, font, sizeof font, NOTHING, NOTHING, NOTHING, NOTHING) == 0);
    expect("its glyph", memory[4096] == 0x5a && memory[4097] == 0 && memory[4116] == 0);
    caption_area dirty = caption_take_dirty_area(R);
    expect("its dirty", dirty.left == 0 && dirty.top == 0 && dirty.right == 160 && dirty.bottom == 80);
    expect("no text", caption_write_byte(R, M, 8192, 0) == 0 && caption_flush(R, M, NO_FONTS, NOTHING, NOTHING) == 0 && memory[4096] == 0);
}

/* What a host must not do: it writes a screen byte itself. Nothing is owed for it, so the sends are idle while the panel differs. */
static void written_behind(void) {
    memory[4096] ^= 0xff;
    expect("idle, and not level", !caption_send(R, M, P(0), 0).sent && panels[0][0] != memory[4096]);
    memory[4096] ^= 0xff;
}

static int level(int k) {
    return !memcmp(panels[k], memory + 4096, sizeof panels[k]);
}

/* Panel 0 is level, and nothing has been sent to the others. A pixel is owed to each of the four: panel 0 has one line to come, the others all 80. Panel 1 is then
   sent to twice as often as panels 0 and 3, and panel 2 not at all; each comes level after as many sends as it has lines, whatever the others get between. */
static void four_panels(void) {
    static const int round[] = {1, 3, 1, 0};
    int sent[CAPTION_PANELS] = {0};
    expect("the last pixel", caption_draw_point(R, M, 159, 79, CAPTION_DRAW_OR) == 0);
    keep();
    for (int i = 0; i < 160; i++) {
        int k = round[i % 4];
        sent[k] += caption_send(R, M, P(k), (uint8_t)k).sent;
    }
    printf("lines sent to the four panels: %d %d %d %d\n", sent[0], sent[1], sent[2], sent[3]);
    expect("each at its own pace", sent[0] == 1 && sent[1] == 80 && sent[2] == 0 && sent[3] == 40);
    expect("two are level", level(0) && level(1) && !level(2) && !level(3));
    expect("panel 2 as it was", !memcmp(rec + CAPTION_AT_PANEL_2, rec_was + CAPTION_AT_PANEL_2, CAPTION_AT_PANEL_3 - CAPTION_AT_PANEL_2) && !memcmp(panels[2], panels_were[2], sizeof panels[2]));
    for (int k = 2; k < CAPTION_PANELS; k++)
        while (caption_send(R, M, P(k), (uint8_t)k).sent)
            sent[k]++;
    expect("and the others in the end", sent[2] == 80 && sent[3] == 80 && level(2) && level(3));
}

/* Panel 0 is level. A cursor in the first text row and a clock in the last owe the lines of their bands, the upper ones first, and none between. A rectangle that
   begins above its band is refused. */
static void bands(void) {
    int lines = 0, last = -1;
    caption_sent s;
    expect("cursor", caption_blink_cursor(R, M) == 0);
    expect("clock", caption_draw_box(R, M, 120, 64, 159, 79, 1, CAPTION_DRAW_XOR) == 0);
    while ((s = caption_send(R, M, P(0), 0)).sent) {
        expect("downwards, first and last row", (int)s.line > last && (s.line < 16 || s.line >= 64));
        last = (int)s.line;
        lines++;
    }
    printf("cursor and clock: %d lines\n", lines);
    expect("32 lines, and level", lines == 32 && level(0));
    expect("cursor away", caption_clear_cursor(R, M) == 0);
    rec[CAPTION_AT_OWED + 8 + 2] = 15;
    rec[CAPTION_AT_OWED + 8 + 4] = 1;
    rec[CAPTION_AT_OWED + 8 + 6] = 17;
    keep();
    refused("a line above its band", caption_draw_point(R, M, 0, 0, 0), 2);
    rec[CAPTION_AT_OWED + 8 + 2] = 16;
    expect("within it", caption_draw_point(R, M, 0, 0, CAPTION_DRAW_UNKNOWN) == 0);
    while (caption_send(R, M, P(0), 0).sent)
        ;
}

/* Opened with the edge flag 1: a line beyond the glass marks dirty, draws and owes nothing; one that runs off it draws its ten pixels; a box inverts rows 78 and 79
   once. With the flag 0 the first is a pixel in the corner. A reset keeps the flag, and a record with flag 2 is refused. */
static void edges(void) {
    expect("open, lines stop", OPEN(R, M, 4096, 8192, 1, CAPTION_EDGE_STOP) == 0);
    while (caption_send(R, M, P(0), 0).sent)
        ;
    expect("line beyond", caption_draw_line(R, M, 200, 90, 210, 90, CAPTION_DRAW_OR) == 0 && memory[5695] == 0);
    caption_area dirty = caption_take_dirty_area(R);
    expect("its dirty", dirty.left == 200 && dirty.top == 90 && dirty.right == 211 && dirty.bottom == 91);
    expect("nothing owed", !caption_send(R, M, P(0), 0).sent && level(0));
    expect("line cut", caption_draw_line(R, M, 150, 79, 170, 79, CAPTION_DRAW_OR) == 0 && memory[5694] == 3 && memory[5695] == 0xff);
    caption_sent s = caption_send(R, M, P(0), 0);
    expect("its line", s.sent == 1 && s.line == 79 && s.left == 150 && s.right == 160 && level(0));
    expect("box cut", caption_draw_box(R, M, 0, 78, 7, 80, 1, CAPTION_DRAW_XOR) == 0 && memory[5656] == 0xff && memory[5676] == 0xff);
    expect("reset keeps the flag", caption_reset(R, M) == 0 && rec[CAPTION_AT_EDGE] == CAPTION_EDGE_STOP);
    rec[CAPTION_AT_EDGE] = 2;
    keep();
    refused("edge flag 2", caption_draw_point(R, M, 0, 0, 0), 2);
    expect("open, lines are clamped", OPEN(R, M, 4096, 8192, 1, CAPTION_EDGE_CLAMP) == 0);
    expect("line clamped", caption_draw_line(R, M, 200, 90, 210, 90, CAPTION_DRAW_OR) == 0 && memory[5695] == 1);
}

static uint32_t write_register(uint8_t register_number, uint8_t value) {
    return caption_controller_write(REGISTERS, P(1), register_number, value);
}

static uint32_t read_register(uint8_t register_number) {
    caption_value v = caption_controller_read(REGISTERS, P(1), register_number);
    expect("read", v.code == 0);
    return v.value;
}

/* Registers 1 to 3, then command 2; answers as the command does, and keeps what stood before it. */
static uint32_t start_line(uint8_t line, uint8_t first, uint8_t count) {
    expect("line", write_register(CAPTION_REGISTER_LINE, line) == 0);
    expect("first byte", write_register(CAPTION_REGISTER_FIRST_BYTE, first) == 0);
    expect("byte count", write_register(CAPTION_REGISTER_BYTE_COUNT, count) == 0);
    keep();
    return write_register(CAPTION_REGISTER_COMMAND, CAPTION_COMMAND_LINE);
}

static caption_sent drive(void) {
    return caption_drive_line(R, M, REGISTERS, P(1), IMAGE, 1);
}

/* The panel's last three bytes by hand. While it is busy with them, registers 0 to 3 are not taken and no line is driven; data is taken only then. Enabled before the
   last byte, the interrupt bit rises with it, and is read once; where it is not enabled, a line ends without it. A reset while busy clears the registers, and the
   panel stays. */
static void by_hand(void) {
    static const uint8_t zeros[CAPTION_PANEL_BYTES] = {0};
    expect("clear", write_register(CAPTION_REGISTER_COMMAND, CAPTION_COMMAND_CLEAR) == 0 && !memcmp(panels[1], zeros, sizeof zeros));
    expect("start", start_line(79, 17, 3) == 0 && read_register(CAPTION_REGISTER_STATUS) == CAPTION_STATUS_BUSY);
    keep();
    for (uint8_t n = CAPTION_REGISTER_COMMAND; n <= CAPTION_REGISTER_BYTE_COUNT; n++)
        refused("write 10, busy", write_register(n, 0), 10);
    refused("drive 9", caption_drive_line(R, M, REGISTERS, P(1), IMAGE, 4).code, 9);
    refused("drive 10", drive().code, 10);
    expect("two bytes", write_register(CAPTION_REGISTER_DATA, 0x5a) == 0 && write_register(CAPTION_REGISTER_DATA, 0x6b) == 0);
    expect("one to come", read_register(CAPTION_REGISTER_FIRST_BYTE) == 19 && read_register(CAPTION_REGISTER_BYTE_COUNT) == 1);
    expect("still busy", write_register(CAPTION_REGISTER_ENABLE, 1) == 0 && read_register(CAPTION_REGISTER_STATUS) == CAPTION_STATUS_BUSY);
    expect("the last byte", write_register(CAPTION_REGISTER_DATA, 0x7c) == 0 && read_register(CAPTION_REGISTER_DATA) == 0x7c);
    uint32_t status = read_register(CAPTION_REGISTER_STATUS);
    printf("by hand: bytes %02x %02x %02x, status %u\n", panels[1][1597], panels[1][1598], panels[1][1599], status);
    expect("interrupt, once", status == CAPTION_STATUS_INTERRUPT && read_register(CAPTION_REGISTER_STATUS) == 0);
    expect("these three", !memcmp(panels[1], zeros, 1597) && panels[1][1597] == 0x5a && panels[1][1598] == 0x6b && panels[1][1599] == 0x7c);
    keep();
    refused("write 10, no more data", write_register(CAPTION_REGISTER_DATA, 0), 10);
    refused("write 10, line 80", start_line(80, 0, 1), 10);
    refused("write 10, past the line", start_line(79, 18, 3), 10);
    refused("write 10, 255 and 1", start_line(79, 255, 1), 10);
    expect("not enabled", write_register(CAPTION_REGISTER_ENABLE, 0) == 0 && start_line(0, 0, 1) == 0);
    expect("no interrupt", write_register(CAPTION_REGISTER_DATA, 0xff) == 0 && panels[1][0] == 0xff && read_register(CAPTION_REGISTER_STATUS) == 0);
    expect("one byte of two", start_line(1, 0, 2) == 0 && write_register(CAPTION_REGISTER_DATA, 0xff) == 0);
    expect("reset", write_register(CAPTION_REGISTER_RESET, 9) == 0 && !memcmp(registers, zeros, sizeof registers) && panels[1][20] == 0xff);
    expect("clear again", write_register(CAPTION_REGISTER_COMMAND, CAPTION_COMMAND_CLEAR) == 0 && !memcmp(panels[1], zeros, sizeof zeros));
}

/* A line to panel 0 directly, and to panel 1 through its controller: the same answer, the same in their parts of the record, and the same bytes, the image's too. */
static caption_sent to_both(void) {
    caption_sent direct = caption_send(R, M, P(0), 0), driven = drive();
    expect("same answer", !memcmp(&direct, &driven, sizeof direct));
    expect("same part", !memcmp(rec + CAPTION_AT_OWED, rec + CAPTION_AT_PANEL_1, CAPTION_AT_PANEL_2 - CAPTION_AT_PANEL_1));
    expect("same bytes", !memcmp(panels[1], panels[0], sizeof panels[0]) && !memcmp(image, panels[0], sizeof image));
    return driven;
}

/* From an open on, panel 1 is driven and panel 0 sent to directly; both start as zeros, and so does the image. Both come level. A box of two lines is taken in hand;
   then a point is drawn beside its second line, in the same byte: the line goes out without it, and with the pixel that the panel shows there. A line in three bytes
   leaves the registers as three writes of data do. A byte by hand is not in the image: the next line in that byte makes it the image's. Idle writes no register. The
   interrupt bit stays until it is read. */
static void driven(void) {
    int lines = 0;
    memset(panels[0], 0, sizeof panels[0]);
    expect("open", OPEN(R, M, 4096, 8192, 1, 0) == 0 && caption_draw_point(R, M, 7, 1, CAPTION_DRAW_OR) == 0);
    expect("enable", write_register(CAPTION_REGISTER_ENABLE, 1) == 0);
    while (to_both().sent)
        lines++;
    printf("driven and sent directly: %d lines each\n", lines);
    expect("80, and level", lines == 80 && level(0) && level(1) && panels[1][20] == 0x01);
    expect("box", caption_draw_box(R, M, 3, 0, 4, 1, 1, CAPTION_DRAW_OR) == 0 && to_both().line == 0 && panels[1][0] == 0x18);
    expect("point", caption_draw_point(R, M, 0, 1, CAPTION_DRAW_OR) == 0 && memory[4116] == 0x99);
    caption_sent s = to_both();
    printf("driven %u %u %u: byte %02x, on the screen %02x\n", s.line, s.left, s.right, panels[1][20], memory[4116]);
    expect("edge bits", s.line == 1 && s.left == 3 && s.right == 5 && panels[1][20] == 0x19);
    expect("and the point", to_both().right == 1 && panels[1][20] == 0x99 && level(1));
    expect("three bytes", caption_draw_line(R, M, 6, 40, 17, 40, CAPTION_DRAW_OR) == 0 && to_both().sent && panels[1][802] == 0xc0);
    static const uint8_t left[] = {CAPTION_COMMAND_LINE, 40, 3, 0, 0xc0, CAPTION_STATUS_INTERRUPT, 1, 0};
    expect("by three data writes", !memcmp(registers, left, sizeof registers));
    expect("a byte by hand", start_line(40, 0, 1) == 0 && write_register(CAPTION_REGISTER_DATA, 0xf0) == 0);
    expect("on the panel alone", panels[1][800] == 0xf0 && image[800] == 0x03);
    expect("the image's again", caption_draw_point(R, M, 7, 40, CAPTION_DRAW_XOR) == 0 && to_both().sent && panels[1][800] == 0x02);
    keep();
    s = drive();
    refused("idle", s.code, 0);
    expect("four zeros", !s.sent && !s.line && !s.left && !s.right);
    expect("the interrupt stays", read_register(CAPTION_REGISTER_STATUS) == CAPTION_STATUS_INTERRUPT);
    expect("until it is read", read_register(CAPTION_REGISTER_STATUS) == 0);
    expect("start", start_line(0, 0, 1) == 0);
    keep();
    refused("drive 10, with nothing owed", drive().code, 10);
}

int main(void) {
    /* open takes buffers with any bytes */
    memset(rec, 0xa5, sizeof rec);
    memset(memory, 0xa5, sizeof memory);
    expect("open", OPEN(R, M, 4096, 8192, 1, 0) == 0);
    expect("point", caption_draw_point(R, M, 3, 0, 1) == 0);
    caption_area dirty = caption_take_dirty_area(R);
    expect("dirty", dirty.left == 3 && dirty.top == 0 && dirty.right == 4 && dirty.bottom == 1);
    expect("check", caption_check_point(R, M, 3, 0).value == 1 && caption_check_point(R, M, -1, 0).value == 0);
    /* open owes the whole screen: line 0 comes first, from edge to edge, and has the point */
    caption_sent s = caption_send(R, M, P(0), 0);
    printf("sent %u %u %u\n", s.line, s.left, s.right);
    expect("first line", s.sent == 1 && s.line == 0 && s.left == 0 && s.right == 160 && panels[0][0] == 0x10);
    refusals();
    broken_record();
    broken_registers();
    bitmap(caption_paint_bitmap);
    bitmap(caption_paint_bitmap_by_bytes);
    both_painters();
    flush();
    /* 15 lines of the opening's first band are in hand of panel 0, and the whole screen is owed for the flush: sends until idle, and the panel is level */
    int more = 0;
    while ((s = caption_send(R, M, P(0), 0)).sent)
        more++;
    printf("%d more lines, then idle\n", more);
    expect("15 more, and the flushed screen", more == 15 + 80 && s.code == 0);
    expect("level", level(0));
    bands();
    written_behind();
    four_panels();
    /* text, cursor and modes: bytes go into cells, the cursor inverts the next cell and back, a newline moves on, a screen mode clears */
    expect("print", caption_print(R, M, (const uint8_t *)"caption", 7) == 0 && !memcmp(memory + 8192, "caption", 7) && caption_get_column(R).value == 7);
    expect("blink", caption_blink_cursor(R, M) == 0 && memory[4096 + 7] == 0xff && rec[CAPTION_AT_CURSOR] == CAPTION_CURSOR_HALF);
    expect("clear cursor", caption_clear_cursor(R, M) == 0 && memory[4096 + 7] == 0 && rec[CAPTION_AT_CURSOR] == CAPTION_CURSOR_NONE);
    expect("newline", caption_newline(R, M) == 0 && caption_get_row(R).value == 1 && caption_get_column(R).value == 0);
    expect("screen mode", caption_set_screen_mode(R, M, CAPTION_SCREEN_GRAPH) == 0 && memory[8192] == 0 && rec[CAPTION_AT_SCREEN_MODE] == 1);
    expect("cls", caption_cls(R, M) == 0 && rec[CAPTION_AT_SCREEN_MODE] == 1);
    edges();
    by_hand();
    driven();
    printf(failures ? "%d failures\n" : "ok\n", failures);
    return failures != 0;
}
