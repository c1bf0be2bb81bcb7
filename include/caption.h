/* The 160 by 80 caption screen: the exported calls of libcaption.a (tools/staticlib).

   A host owns these buffers and lends them to every call that takes them:

       record      CAPTION_RECORD_BYTES   the state of one screen and of its panels; caption_open writes it
       memory      CAPTION_MEMORY_BYTES   holds the screen, 1,600 bytes from the graphics base, and the text, 100 bytes from the text base
       panels      CAPTION_PANEL_BYTES    up to CAPTION_PANELS of them, one for each glass: what it shows; caption_send writes it, or the calls of its controller
       registers   CAPTION_REGISTERS      of a glass controller, a byte each; zeros at first
       image       CAPTION_PANEL_BYTES    of a driven panel: what it shows, as its driver knows it; zeros at first

   A whole caption:

       caption_open(record, sizeof record, memory, sizeof memory, 4096, 8192, CAPTION_V2, 0, 0, 0, 0, 0, 0, 0, 0, CAPTION_EDGE_CLAMP);
       caption_print(record, sizeof record, memory, sizeof memory, text, text_len);
       caption_flush(record, sizeof record, memory, sizeof memory, .. the fonts ..);
       while ((s = caption_send(record, sizeof record, memory, sizeof memory, panel, sizeof panel, 0)).sent)
           .. hand line s.line, pixels s.left to s.right - 1, of panel to glass 0 ..

   Panels. One screen is shown on up to four, numbered 0 to 3, and each is polled at its own pace: it has an owed area, a rectangle in hand and a count of lines
   sent of its own in the record. Every mark goes to all four; a send goes to one and leaves the other three as they are. A panel's buffer belongs to its number from
   caption_open on. A number that is never sent to stays owed in its part of the record; its buffer need not be there.
   Bands. The owed area is CAPTION_BANDS rectangles, one for each band of CAPTION_BAND_LINES lines, a text row, from the top down. A mark is cut at the bands' edges
   and each part joined to its band's rectangle, so that a change in one row and a change in another owe no line between them. A send with nothing in hand takes the
   uppermost band that owes anything: a host that goes on marking a row before that row's lines are sent keeps the rows below it waiting.

   Pixels. x runs 0-159 to the right, y 0-79 downwards. Pixel (x, y) is bit 0x80 >> x % 8 of byte 20 * y + x / 8, on screen and panel alike.
   Rectangles. left and top are the first column and line, right and bottom the ones after the last: they are not included. Four zeros are the empty rectangle.
   Marks. A call that draws marks a rectangle: it is joined to the dirty area, which caption_take_dirty_area hands out, and to what each panel is owed, which the
   sends to it work off. Dirty has the coordinates as they were told, up to 256, also where a clamped line was drawn at the screen's edge instead, and where a line
   that stops there drew nothing. What is owed is brought to that edge where lines are clamped, and cut to the screen: it holds every pixel that has changed.
   Edges. What a horizontal line does beyond column 159 or row 79 is told to caption_open, once for the screen: with CAPTION_EDGE_CLAMP it is drawn in that column or
   row instead, as in the Rust original; with CAPTION_EDGE_STOP its pixels there are left out. Boxes and filled ellipses are made of such lines.

   Controllers. A glass controller is a device of CAPTION_REGISTERS byte registers (enum caption_register) and a panel. A host writes and reads the registers with
   caption_controller_write and caption_controller_read; caption_drive_line, the line driver, makes a send through them. Registers start as zeros. Damaged ones are
   STATE for every call, a write to CAPTION_REGISTER_RESET too: the host sets them to zeros itself.
   Driven panels. A number is either driven or sent to directly, from caption_open on: no caption_send goes to a driven panel. A driven number has registers, panel
   and image, buffers of their own; panel and image start with the same bytes, zeros. Of a line or a clear that the host writes through the registers the image knows
   nothing, and nothing is owed for it. Where panel and image differ, the panel's bits beside a driven line, in its first and last byte, become the image's.
   Theorems (docs/THEOREM.md). The one about calls in any order has no register and driver calls in its lists. A theorem of their own says that driven sends
   answer and leave what direct sends do: from one record and memory, equal panels and image, and a device that is not busy. So a driven panel comes level as
   another does, with any calls between but register calls.

   Nobody but these calls may write the record, the panels, the images, the registers (but for those zeros), or the screen's bytes in memory. Of a screen byte that
   the host writes itself nothing is owed, and the sends are idle while the panels differ; caption_write_byte is the way to set one. No send reads the other bytes of
   memory: the host may put bitmaps there.

   Refusals. Every call tests what it is lent and told, and answers CAPTION_DONE or the first refusal that is due, of those named at the call in that order. With
   a refusal no lent byte has changed and all other numbers of the result are 0. A number whose range is not named may be any of its type.

   Trusted of the caller, and tested by no call: each pointer is valid for its length and not null, also at length 0; a buffer lent without `const` shares no byte
   with any other buffer of the same call (a text or a font inside memory does). Buffers lent as `const` may share bytes with each other.

   Threads. There is no global data, no heap, no lock and no system call: calls on different buffers may run at the same time. Calls that share a buffer may not,
   unless it is `const` in all of them; so sends to two panels of one screen, which share its record, may not either.
   Stack. caption_paint_bitmap takes at most 8.5 KB, caption_paint_bitmap_by_bytes at most 10.3 KB, any other call less than 600 bytes (measured; docs/CALLS.md).
   No proof covers the stack.
   Target. x86-64 Linux, position independent; of the C library memcpy and memset. */
#ifndef CAPTION_H
#define CAPTION_H

#include <stddef.h>
#include <stdint.h>

#define CAPTION_RECORD_BYTES 359
#define CAPTION_MEMORY_BYTES 65536
#define CAPTION_PANEL_BYTES 1600
#define CAPTION_PANELS 4
#define CAPTION_BANDS 5
#define CAPTION_BAND_LINES 16
#define CAPTION_REGISTERS 8

/* the code that every call answers. 8 is kept for an ellipse of over 512 steps, and never given: none within the radii takes so many */
enum caption_code {
    CAPTION_DONE = 0,
    CAPTION_LENT = 1,     /* the record has not 359 bytes, memory not 65,536, panel or image not 1,600, registers not 8, or the extra list no multiple of 6 */
    CAPTION_STATE = 2,    /* a field of the record (enum caption_at) or a register (enum caption_register) is out of its range */
    CAPTION_WINDOW = 3,   /* graphics base above 63,935, text base above 65,435, or the 1,600 and the 100 bytes from there share a byte */
    CAPTION_VALUE = 4,    /* a row above 4, a column above 19, or a mode, version, fill or edge flag that is not listed */
    CAPTION_SOURCE = 5,   /* a bitmap of nonzero size whose source runs past the end of memory */
    CAPTION_RADIUS = 6,   /* a radius above 127 */
    CAPTION_GLYPH = 7,    /* a flush would paint a byte past the end of its font */
    CAPTION_PANEL = 9,    /* a panel's number above 3 */
    CAPTION_REGISTER = 10 /* a register above 7, a write that the controller does not take, or a driver call while it is busy */
};

enum caption_version { CAPTION_V1 = 0, CAPTION_V2 = 1 };
enum caption_edge { CAPTION_EDGE_CLAMP = 0, CAPTION_EDGE_STOP = 1 };
enum caption_draw_mode { CAPTION_DRAW_CLEAR = 0, CAPTION_DRAW_OR = 1, CAPTION_DRAW_XOR = 2, CAPTION_DRAW_UNKNOWN = 3 };
enum caption_paint_mode { CAPTION_PAINT_COPY = 0, CAPTION_PAINT_OR = 1, CAPTION_PAINT_NOT = 2, CAPTION_PAINT_AND = 3, CAPTION_PAINT_XOR = 4 };
/* Text: a flush clears the screen first, and the cursor can be shown. Graph: the picture stays under a flush and scrolls with the text */
enum caption_screen_mode { CAPTION_SCREEN_TEXT = 0, CAPTION_SCREEN_GRAPH = 1 };
enum caption_print_mode { CAPTION_PRINT_NORMAL = 0, CAPTION_PRINT_INVERSE = 1, CAPTION_PRINT_FLASH = 2 };
enum caption_cursor { CAPTION_CURSOR_NONE = 0, CAPTION_CURSOR_HALF = 1, CAPTION_CURSOR_FULL = 2 };

/* Where the fields of the record begin, for a host that reads them. Numbers of two and four bytes have their least byte first; a rectangle is left, top, right,
   bottom, two bytes each. STATE is due where a field is out of the range given. */
enum caption_at {
    CAPTION_AT_GRAPHICS_BASE = 0, /* two bytes; the two bases as WINDOW asks */
    CAPTION_AT_TEXT_BASE = 2,     /* two bytes */
    CAPTION_AT_ROW = 4,           /* 0-4 */
    CAPTION_AT_COLUMN = 5,        /* 0-19 */
    CAPTION_AT_SCREEN_MODE = 6,   /* enum caption_screen_mode */
    CAPTION_AT_PRINT_MODE = 7,    /* enum caption_print_mode */
    CAPTION_AT_CURSOR = 8,        /* enum caption_cursor: the one that is shown */
    CAPTION_AT_VERSION = 9,       /* enum caption_version */
    CAPTION_AT_DIRTY = 10,        /* a rectangle, right and bottom up to 256; this and the next two empty, or left < right and top < bottom */
    CAPTION_AT_OWED = 18,         /* panel 0: five rectangles; that of band b has top from 16 * b on, bottom up to 16 * b + 16 and right up to 160 */
    CAPTION_AT_IN_HAND = 58,      /* panel 0: a rectangle, right up to 160, bottom up to 80; its top is the next line to be sent */
    CAPTION_AT_LINES_SENT = 66,   /* panel 0: four bytes; stays at 4,294,967,295 once there */
    CAPTION_AT_KEYS = 70,         /* eight words of four bytes: bit a % 32 of word a / 32 makes address a, 0-255, a key address */
    CAPTION_AT_FLAGS = 102,       /* a byte for each text cell, row by row: 1 where it is printed inverse, else 0 */
    CAPTION_AT_PANEL_1 = 202,     /* panels 1, 2 and 3, 52 bytes each: owed, in hand and lines sent, as panel 0 has them */
    CAPTION_AT_PANEL_2 = 254,
    CAPTION_AT_PANEL_3 = 306,
    CAPTION_AT_EDGE = 358         /* enum caption_edge; caption_open alone changes it */
};

/* The registers of a glass controller. STATE is due where one is out of the range given, or where line, first byte and byte count do not fit while it is busy. */
enum caption_register {
    CAPTION_REGISTER_COMMAND = 0,    /* enum caption_command: the last one */
    CAPTION_REGISTER_LINE = 1,       /* any; fits up to 79 */
    CAPTION_REGISTER_FIRST_BYTE = 2, /* any; the byte of the line that data goes to next */
    CAPTION_REGISTER_BYTE_COUNT = 3, /* any; data bytes to come. Fits from 1 on, with first byte plus byte count up to 20 */
    CAPTION_REGISTER_DATA = 4,       /* any; the last data byte */
    CAPTION_REGISTER_STATUS = 5,     /* 0-3, the two bits of enum caption_status */
    CAPTION_REGISTER_ENABLE = 6,     /* interrupt enable: 0 or 1 */
    CAPTION_REGISTER_RESET = 7       /* 0 */
};
enum caption_command { CAPTION_COMMAND_NONE = 0, CAPTION_COMMAND_CLEAR = 1, CAPTION_COMMAND_LINE = 2 };
enum caption_status { CAPTION_STATUS_BUSY = 1, CAPTION_STATUS_INTERRUPT = 2 };

typedef struct {
    uint32_t code, value;
} caption_value;

typedef struct {
    uint32_t code, left, top, right, bottom;
} caption_area;

/* sent is 1, with line 0-79, left 0-159 and right up to 160; or 0 for idle */
typedef struct {
    uint32_t code, sent, line, left, right;
} caption_sent;

#ifdef __cplusplus
extern "C" {
#endif

/* ---- begin */

/* Clears memory: 0, but 0x40 in the last byte and 0xff at each key address (keys0 to keys7 are the words of CAPTION_AT_KEYS). Writes the whole record: row and
   column 0, Text, Normal, no cursor, dirty empty, flags 0, the edge flag as it is told; to each panel the whole screen owed, nothing in hand, no line sent. The
   record is not read before, and the panels may hold anything. Refusals: LENT, WINDOW, VALUE (version, edge). */
uint32_t caption_open(uint8_t *record, size_t record_len, uint8_t *memory, size_t memory_len, uint16_t graphics_base, uint16_t text_base,
                      uint8_t version, uint32_t keys0, uint32_t keys1, uint32_t keys2, uint32_t keys3, uint32_t keys4, uint32_t keys5,
                      uint32_t keys6, uint32_t keys7, uint8_t edge);

/* The same with the bases, version, keys and edge flag of the record; keeps each panel's rectangle in hand and lines sent. Refusals: LENT, STATE. */
uint32_t caption_reset(uint8_t *record, size_t record_len, uint8_t *memory, size_t memory_len);

/* ---- drawing: Clear, Or and Xor clear, set and invert a pixel; Unknown leaves it, but inverts wherever a horizontal line is drawn */

/* Off the screen nothing. On it, marks the pixel, in Unknown too. Refusals: LENT, STATE, VALUE (mode). */
uint32_t caption_draw_point(uint8_t *record, size_t record_len, uint8_t *memory, size_t memory_len, uint8_t x, uint8_t y, uint8_t mode);

/* Both ends included; marks their rectangle. A horizontal line (y1 = y2, so equal ends too) is clamped, not clipped: x beyond 159 counts as 159, y beyond 79 as
   79; with CAPTION_EDGE_STOP its pixels off the screen are left out, and only what of its mark lies on the screen is owed. Of any other line the pixels off the
   screen are left out, and in Unknown it does nothing and marks nothing. A sloped line goes from its left end by 8-bit error sums, as in the Rust original: where
   the ends lie over 256 apart, across and down together, the sums wrap and it may miss its right end. Refusals: LENT, STATE, VALUE (mode). */
uint32_t caption_draw_line(uint8_t *record, size_t record_len, uint8_t *memory, size_t memory_len, uint8_t x1, uint8_t y1, uint8_t x2,
                           uint8_t y2, uint8_t mode);

/* Any two opposite corners, included; marks their rectangle. fill 1: every row is a horizontal line, so each beyond 79 falls on row 79 again, or with
   CAPTION_EDGE_STOP on none. fill 0: top and bottom as horizontal lines, then left and right unless Unknown, clipped with either flag; in Xor a pixel that is
   drawn twice, as each corner, is as it was. Refusals: LENT, STATE, VALUE (fill, mode). */
uint32_t caption_draw_box(uint8_t *record, size_t record_len, uint8_t *memory, size_t memory_len, uint8_t x1, uint8_t y1, uint8_t x2,
                          uint8_t y2, uint8_t fill, uint8_t mode);

/* An ellipse round (x, y), radii 0-127; fill 0: its outline, 1: horizontal lines across it. Sums and differences of centre and radius wrap at 256; a horizontal
   line whose left end lies right of its right one for that starts at 0. Two zero radii are a point. An outline in Unknown does nothing and marks nothing,
   whatever the radii. Marks the whole screen where a radius exceeds its coordinate or x + rx or y + ry exceeds 255; else from (x - rx, y - ry) to the larger of
   x + rx + 1 and 160, and of y + ry + 1 and 80.
   Refusals: LENT, STATE, VALUE (fill, mode), RADIUS unless it is a point or an outline in Unknown. */
uint32_t caption_draw_ellipse(uint8_t *record, size_t record_len, uint8_t *memory, size_t memory_len, uint8_t x, uint8_t y, uint8_t rx,
                              uint8_t ry, uint8_t fill, uint8_t mode);
uint32_t caption_draw_circle(uint8_t *record, size_t record_len, uint8_t *memory, size_t memory_len, uint8_t x, uint8_t y, uint8_t r,
                             uint8_t fill, uint8_t mode);

/* value 1 where the pixel is set, else 0; off the screen 0. Refusals: LENT, STATE. */
caption_value caption_check_point(const uint8_t *record, size_t record_len, const uint8_t *memory, size_t memory_len, int32_t x, int32_t y);

/* A bitmap of width by height pixels at (x, y), clipped to the screen; marks what is left of it. The source lies in memory from the address on: height lines of
   (width + 7) / 8 bytes, the leftmost pixel in the highest bit. It may share bytes with the screen, and counts as it was before the call. Of source bit s and
   screen bit v, Copy makes s, Or s | v, Not !s, And s & v, Xor s ^ v. A bitmap of zero size does nothing.
   Refusals: LENT, STATE, VALUE (mode), SOURCE unless the size is zero. */
uint32_t caption_paint_bitmap(uint8_t *record, size_t record_len, uint8_t *memory, size_t memory_len, uint16_t address, int32_t x, int32_t y,
                              uint8_t width, uint8_t height, uint8_t mode);

/* The same, a byte of the screen at a time: on every input it answers and leaves what caption_paint_bitmap does, in a fraction of its time. A source that shares
   no byte with the screen is read where it lies; one that does costs a copy of both. Refusals: as there. */
uint32_t caption_paint_bitmap_by_bytes(uint8_t *record, size_t record_len, uint8_t *memory, size_t memory_len, uint16_t address, int32_t x, int32_t y,
                                       uint8_t width, uint8_t height, uint8_t mode);

/* One byte of memory. Addresses from 0xe000 on and key addresses are left as they are, and the answer is 0. On the screen, marks the byte's eight pixels.
   Refusals: LENT, STATE. */
uint32_t caption_write_byte(uint8_t *record, size_t record_len, uint8_t *memory, size_t memory_len, uint16_t address, uint8_t byte);

/* ---- text: 5 rows of 20 cells, a byte and an inverse flag each. It shows on the screen after the next caption_flush */

/* The bytes go into the cells from row and column on, which move on with them; after column 19 comes column 0 of the next row, after row 4 the text scrolls up by
   a row. No byte is a control code. A byte from 128 on is a pair with the byte after it, if there is one, and is not split: met at column 19, a space is put
   there and a row begun. The cells written get flag 0 in Normal, 1 in Inverse and Flash. Then the cell at row and column becomes 0, and those after it up to the
   first that is 0 already. Dirty stays; but in Graph each scroll moves the screen up by 16 lines too, and the whole screen is owed.
   Refusals: LENT, STATE. */
uint32_t caption_print(uint8_t *record, size_t record_len, uint8_t *memory, size_t memory_len, const uint8_t *text, size_t text_len);

/* At column 0 nothing; else column 0 of the next row, and at row 4 a scroll, as in caption_print. Refusals: LENT, STATE. */
uint32_t caption_newline(uint8_t *record, size_t record_len, uint8_t *memory, size_t memory_len);

/* Paints the text onto the screen and marks all of it. In Text the screen is cleared first; in Graph the picture stays under the glyphs. A cell is 8 pixels wide
   and 16 high; a zero cell is skipped; a set flag inverts its cell.
       byte 1-127       16 bytes of ascii16, at 16 * byte
       byte from 128    with the next cell, a pair: 32 bytes, 16 lines of two, from the first of these that has it
                          emoji   at 32 * index. V1: FA46-FA7E FAA1-FAFE FB40-FB7E FBA1-FBFE FC40-FC7E FCA1-FCFE FD40-FD7D;
                                  V2: F8A1-F8FE, so F9, FA, FB, FC, and FDA1-FDD9; index 0-526 in this order
                          gb      at 32 * index. Lead 161-169 or 176-247, trail 161-254; index 94 * s + trail - 161 with s = lead - 161, less 6 if s > 8
                          extra   extra_list has entries of 6 bytes, least byte first: code (2, lead * 256 + trail), offset (4) in extra_font; the first counts
                        else both bytes in hexadecimal, two digits one above the other, never inverted: 8 bytes of ascii8 each, at 8 * character
   A pair at column 19 has its right half in column 0 below (a hexadecimal one in column 0 of its own row, one line lower), and from there on cells are read one
   further ahead; past the last cell zeros are read. A byte from 128 on at row 4, column 19 is shown alone in hexadecimal.
   A font needs only what the text uses: with 568 bytes of ascii8, 2,048 of ascii16, 243,648 of gb, 16,864 of emoji, and 32 bytes of extra_font from each offset
   of the list on, any text passes; then the text is walked once, not twice.
   Refusals: LENT (also an extra list of no multiple of 6), STATE, GLYPH. */
uint32_t caption_flush(uint8_t *record, size_t record_len, uint8_t *memory, size_t memory_len, const uint8_t *ascii8, size_t ascii8_len,
                       const uint8_t *ascii16, size_t ascii16_len, const uint8_t *gb, size_t gb_len, const uint8_t *emoji, size_t emoji_len,
                       const uint8_t *extra_list, size_t extra_list_len, const uint8_t *extra_font, size_t extra_font_len);

/* Clears text, flags and screen, row and column, and marks the whole screen; modes and cursor stay. Refusals: LENT, STATE. */
uint32_t caption_cls(uint8_t *record, size_t record_len, uint8_t *memory, size_t memory_len);

/* The same, and the mode. Refusals: LENT, STATE, VALUE (mode). */
uint32_t caption_set_screen_mode(uint8_t *record, size_t record_len, uint8_t *memory, size_t memory_len, uint8_t mode);

/* For what is printed from now on. Flash while Inverse gives Normal. Refusals: LENT, STATE, VALUE (mode). */
uint32_t caption_set_print_mode(uint8_t *record, size_t record_len, uint8_t mode);

/* value 0-4, and 0-19. Refusals: LENT, STATE. */
caption_value caption_get_row(const uint8_t *record, size_t record_len);
caption_value caption_get_column(const uint8_t *record, size_t record_len);

/* row 0-4, column 0-19; the other one stays. Refusals: LENT, STATE, VALUE (row, column). */
uint32_t caption_set_row(uint8_t *record, size_t record_len, uint8_t row);
uint32_t caption_set_column(uint8_t *record, size_t record_len, uint8_t column);

/* In Text, with no cursor shown, inverts the cell at row and column on the screen, or two cells where its byte is from 128 on (one at column 19), and a cursor is
   shown, half or full; with one shown, inverts as many cells at row and column, and none is. Marks 8 or 16 columns of 16 lines. In Graph nothing.
   The record does not keep where the cursor is shown: clear it before row or column change, and before a flush or a cls, which leave CAPTION_AT_CURSOR.
   Refusals: LENT, STATE. */
uint32_t caption_blink_cursor(uint8_t *record, size_t record_len, uint8_t *memory, size_t memory_len);

/* With no cursor shown nothing; in Text a blink; in Graph the screen stays, and none is shown. Refusals: LENT, STATE. */
uint32_t caption_clear_cursor(uint8_t *record, size_t record_len, uint8_t *memory, size_t memory_len);

/* ---- what changed */

/* The dirty area, up to 256 by 256; it is empty afterwards. What the panels are owed stays. Refusals: LENT, STATE. */
caption_area caption_take_dirty_area(uint8_t *record, size_t record_len);

/* One line to the panel of that number, 0 to 3, whose buffer is lent. Owed, in hand and lines sent are that panel's, and those of the others stay, however often
   and in whatever order they are sent to. With nothing in hand, the first band from the top that owes anything is taken in hand, and owes nothing. With still nothing
   in hand the answer is idle, four zeros, and nothing changes. Else the pixels left to right - 1 of the top line in hand are copied from the screen as it is now to
   the panel; other bits of the panel stay. That line is answered and counted, and leaves the rectangle. What is marked meanwhile is owed, and its turn comes when
   nothing is in hand. So, with no mark between, as many sends to a panel as it has lines in hand and owed, 95 at most, make it equal to the screen, and the next one
   is idle.
   Refusals: LENT, STATE, PANEL. */
caption_sent caption_send(uint8_t *record, size_t record_len, const uint8_t *memory, size_t memory_len, uint8_t *panel, size_t panel_len,
                          uint8_t number);

/* ---- the glass controller */

/* The byte to that register, where it stays but for reset. Beside that,
       command   LINE starts a line and sets busy, if line, first byte and byte count fit; CLEAR makes the panel zeros; NONE does nothing
       data      goes to byte 20 * line + first byte of the panel; first byte is raised and byte count lowered by 1. When that reaches 0, busy clears, and the
                 interrupt bit rises if it is enabled then
       reset     any byte clears all eight registers, which aborts a line; the panel stays
   Command, line, first byte and byte count are taken while not busy, data while busy, enable and reset always, status never. The interrupt bit stays until status is
   read, or a reset.
   Refusals: LENT, STATE, REGISTER (a register above 7, one that is not taken, a command or enable that is not listed, LINE where the three do not fit). */
uint32_t caption_controller_write(uint8_t *registers, size_t registers_len, uint8_t *panel, size_t panel_len, uint8_t register_number,
                                  uint8_t value);

/* value is the byte of that register, busy or not. A read of status then clears the interrupt bit; any other changes nothing.
   Refusals: LENT, STATE, REGISTER (a register above 7). */
caption_value caption_controller_read(uint8_t *registers, size_t registers_len, const uint8_t *panel, size_t panel_len,
                                      uint8_t register_number);

/* A send to the panel of that number, through its controller. Answer and record are those of caption_send. Where it is idle, no register is written. Else the line's
   pixels are copied from the screen to the image; registers 1 to 3 and command LINE are written, and as data the bytes of the image that hold these pixels, with its
   other bits in the first and last of them. No status is read: a raised interrupt bit stays.
   Refusals: LENT, STATE (record or registers), PANEL, REGISTER (busy, also where the send would be idle). */
caption_sent caption_drive_line(uint8_t *record, size_t record_len, const uint8_t *memory, size_t memory_len, uint8_t *registers,
                                size_t registers_len, uint8_t *panel, size_t panel_len, uint8_t *image, size_t image_len, uint8_t number);

#ifdef __cplusplus
}
#endif

#endif
