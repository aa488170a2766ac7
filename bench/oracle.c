/*
 * oracle run BLOCKS VPAGES FPAGES < SCRIPT > REPLIES
 *
 * The commands on the volume, their media errors, `cut` and `restart`, over a plain simulator of the module's lines: of each
 * word the values that may be left, sixteen at most. It has no logs, tables or counts, so each page is there from its first store
 * on. At most 16 pages, so that there are never more than 1,024 dirty lines. For a measure of what they cost it also has 64 blocks
 * and two files of 16 pages, which lie in place and are there from the start: `f1`, and one by any other name, which is what any
 * handle shows. Writes of blocks and atomic writes go straight to their lines.
 * A second implementation, whose replies the program's are compared with and whose instructions they are measured against.
 * It is written after docs/formats.md and docs/model.md, and reads its own words without a look at their limits.
 */
#include <errno.h>
#include <stdint.h>
#include <stdlib.h>
#include <string.h>
#include <unistd.h>

enum { WORD = 8, LINE = 64, PAGE = 4096, BLOCK = 512, MOST = 65536, PAGES = 16, BLOCKS = 64, VALUES = 16 };
/* Where the lines of the blocks and of the two files begin, behind those of the volume; and how many there are. */
enum { AREA = PAGES * PAGE / LINE, OF_BLOCKS = AREA, OF_FILE = OF_BLOCKS + BLOCKS * BLOCK / LINE, OF_OTHER = OF_FILE + AREA, LINES = OF_OTHER + AREA };
enum choice { NONE, ALL, SEED };

struct word { const uint8_t *p; size_t n; };

/* The values that each word of a line may be left with, oldest first. */
struct line { uint8_t is_bad, is_weak, count[8]; uint64_t value[8][VALUES]; };

static struct line lines[LINES];
static uint8_t last[LINES * LINE], is_there[PAGES], is_block[BLOCKS], data[MOST];
static uint64_t size, first_half, first_line, second_line;
static int is_on = 1;

/* ---- replies ---- */

static uint8_t out[1 << 16];
static size_t out_len;

static void flush(void)
{
	for (size_t at = 0; at < out_len;) {
		ssize_t n = write(1, out + at, out_len - at);

		if (n < 0 && errno != EINTR)
			_exit(5);
		at += n > 0 ? (size_t)n : 0;
	}
	out_len = 0;
}

static void put(const void *p, size_t n)
{
	if (out_len + n > sizeof out)
		flush();
	memcpy(out + out_len, p, n);
	out_len += n;
}

static void say(const char *line)
{
	put(line, strlen(line));
	put("\n", 1);
}

static void put_number(uint64_t v)
{
	char t[20];
	size_t i = sizeof t;

	do
		t[--i] = (char)('0' + v % 10);
	while (v /= 10);
	put(t + i, sizeof t - i);
}

static void say_data(const uint8_t *b, size_t n)
{
	static const char hex[] = "0123456789abcdef";

	put("data ", 5);
	for (size_t i = 0, run; i < n; i += run) {
		char pair[3] = { ',', hex[b[i] >> 4], hex[b[i] & 15] };

		for (run = 1; i + run < n && b[i + run] == b[i]; run++)
			;
		put(pair + !i, 3 - !i);
		if (run > 1) {
			put("*", 1);
			put_number(run);
		}
	}
	put("\n", 1);
}

/* ---- words ---- */

static int is(struct word w, const char *s)
{
	return w.n == strlen(s) && !memcmp(w.p, s, w.n);
}

static int number(struct word w, uint64_t *v)
{
	*v = 0;
	if (w.n < 1 || w.n > 10)
		return 0;
	for (size_t i = 0; i < w.n; i++) {
		if (w.p[i] < '0' || w.p[i] > '9')
			return 0;
		*v = 10 * *v + (w.p[i] - '0');
	}
	return *v <= UINT32_MAX;
}

static int digit(uint8_t c)
{
	return c >= '0' && c <= '9' ? c - '0' : c >= 'a' && c <= 'f' ? c - 'a' + 10 : c >= 'A' && c <= 'F' ? c - 'A' + 10 : -1;
}

/* The bytes that an item spells, put at data + n: how many bytes there are then, or 0 where it is none or there is no room. */
static size_t item(const uint8_t *p, size_t len, size_t n)
{
	uint64_t times = 1;

	if (len > 3 && p[2] == '*') {
		if (!number((struct word){ p + 3, len - 3 }, &times) || !times)
			return 0;
		len = 2;
	}
	if (!len || len % 2)
		return 0;
	for (size_t i = 0; i < len; i += 2) {
		int high = digit(p[i]), low = digit(p[i + 1]);

		if (high < 0 || low < 0 || n + times > MOST)
			return 0;
		memset(data + n, high << 4 | low, times);
		n += times;
	}
	return n;
}

/* The bytes that DATA spells, or 0. */
static size_t bytes(struct word w)
{
	size_t n = 0;

	for (size_t at = 0, end; at <= w.n; at = end + 1) {
		for (end = at; end < w.n && w.p[end] != ','; end++)
			;
		if (!(n = item(w.p + at, end - at, n)))
			return 0;
	}
	return n;
}

/* ---- what is refused ---- */

static int is_off(void)
{
	if (!is_on)
		say("refused off");
	return !is_on;
}

static int is_past(uint64_t end, uint64_t offset, uint64_t len)
{
	if (offset + len > end)
		say("refused range");
	else if (!len)
		say("refused length");
	return !len || offset + len > end;
}

static int is_outside(uint64_t offset, uint64_t len)
{
	return is_past(size, offset, len);
}

/* ---- lines ---- */

static void write_back(uint64_t n)
{
	for (int w = 0; w < 8; w++) {
		memcpy(&lines[n].value[w][0], last + n * LINE + w * WORD, WORD);
		lines[n].count[w] = 1;
	}
}

static void clear(uint64_t n)
{
	memset(last + n * LINE, 0, LINE);
	lines[n].is_bad = lines[n].is_weak = 0;
	write_back(n);
}

static void persist(uint64_t n)
{
	lines[n].is_bad |= lines[n].is_weak;
	lines[n].is_weak = 0;
	write_back(n);
}

/* Bytes into one line. A seventeenth value of a word has the line written back, or drops the second where the line is weak. */
static void store(uint64_t n, unsigned at, const uint8_t *bytes, unsigned len)
{
	struct line *l = &lines[n];
	unsigned first = at / WORD, end = (at + len + WORD - 1) / WORD;

	if (l->is_bad)
		clear(n);
	for (unsigned w = first; w < end; w++)
		if (l->count[w] == VALUES && !l->is_weak)
			write_back(n);
	memcpy(last + n * LINE + at, bytes, len);
	for (unsigned w = first; w < end; w++) {
		if (l->count[w] == VALUES)
			memmove(l->value[w] + 1, l->value[w] + 2, (--l->count[w] - 1) * sizeof l->value[w][0]);
		memcpy(&l->value[w][l->count[w]++], last + n * LINE + w * WORD, WORD);
	}
}

static uint64_t place(uint64_t n, unsigned w)
{
	return 8 * (n < first_half ? first_line + n : second_line + n - first_half) + w;
}

static void keep(uint64_t n, unsigned w, enum choice choice, uint64_t seed)
{
	struct line *l = &lines[n];
	uint64_t x = (seed + place(n, w)) * 6364136223846793005u + 1442695040888963407u;
	unsigned i = choice == NONE ? 0 : choice == ALL ? l->count[w] - 1u : (unsigned)((x >> 33) % l->count[w]);

	l->value[w][0] = l->value[w][i];
	l->count[w] = 1;
	memcpy(last + n * LINE + w * WORD, &l->value[w][0], WORD);
}

static void restart(enum choice choice, uint64_t seed)
{
	uint64_t bad = 0;

	if (is_on) {
		say("refused on");
		return;
	}
	for (uint64_t n = 0; n < LINES; n++) {
		for (unsigned w = 0; w < 8; w++)
			if (lines[n].count[w] > 1)
				keep(n, w, choice, seed);
		bad += lines[n].is_bad;
	}
	is_on = 1;
	put("ok bad ", 7);
	put_number(bad);
	put("\n", 1);
}

/* ---- commands ---- */

/* The lowest bad line that a span touches, or, for a store, that it doesn't cover. */
static int is_poisoned(uint64_t offset, uint64_t len, int is_store)
{
	for (uint64_t n = offset / LINE; n * LINE < offset + len; n++) {
		if (!lines[n].is_bad || (is_store && offset <= n * LINE && n * LINE + LINE <= offset + len))
			continue;
		put("poison volume ", 14);
		put_number(n * LINE);
		put(" 64\n", 4);
		return 1;
	}
	return 0;
}

/* The bytes of DATA into an area of lines. */
static void put_bytes(uint64_t area, uint64_t offset, uint64_t len)
{
	const uint8_t *from = data;

	while (len) {
		unsigned at = offset % LINE, n = len < LINE - at ? (unsigned)len : LINE - at;

		store(area + offset / LINE, at, from, n);
		offset += n, from += n, len -= n;
	}
}

static void persist_lines(uint64_t area, uint64_t offset, uint64_t len)
{
	for (uint64_t n = offset / LINE; n * LINE < offset + len; n++)
		persist(area + n);
}

static void vstore(uint64_t offset, uint64_t len)
{
	if (is_off() || is_outside(offset, len) || is_poisoned(offset, len, 1))
		return;
	for (uint64_t p = offset / PAGE; p * PAGE < offset + len; p++)
		is_there[p] = 1;
	put_bytes(0, offset, len);
	say("ok");
}

static void vsync(uint64_t offset, uint64_t len)
{
	if (is_off() || is_outside(offset, len) || is_poisoned(offset, len, 0))
		return;
	persist_lines(0, offset, len);
	say("ok");
}

/* ---- blocks and files ---- */

static void read_blocks(uint64_t first, uint64_t count)
{
	static uint8_t got[MOST];

	for (uint64_t b = 0; b < count; b++)
		if (is_block[first + b])
			memcpy(got + BLOCK * b, last + OF_BLOCKS * LINE + BLOCK * (first + b), BLOCK);
		else
			memset(got + BLOCK * b, 0, BLOCK);
	say_data(got, BLOCK * count);
}

static int on_blocks(const struct word *w, uint64_t first)
{
	uint64_t count, len;

	if ((is(w[0], "bwrite") || is(w[0], "batomic")) && (len = bytes(w[2])) && len % BLOCK == 0) {
		if (!is_off() && !is_past(BLOCKS, first, len / BLOCK)) {
			memset(is_block + first, 1, len / BLOCK);
			put_bytes(OF_BLOCKS, BLOCK * first, len);
			persist_lines(OF_BLOCKS, BLOCK * first, len);
			say("ok");
		}
		return 1;
	}
	if ((is(w[0], "bread") || is(w[0], "bdiscard")) && number(w[2], &count)) {
		if (is_off() || is_past(BLOCKS, first, count))
			return 1;
		if (is(w[0], "bread")) {
			read_blocks(first, count);
		} else {
			memset(is_block + first, 0, count);
			say("ok");
		}
		return 1;
	}
	return 0;
}

/* A command on a file by its name or by a handle. */
static int on_file(const struct word *w, uint64_t offset)
{
	uint64_t len, area = is(w[1], "f1") ? OF_OTHER : OF_FILE;

	if ((is(w[0], "store") || is(w[0], "fwrite") || is(w[0], "fatomic")) && (len = bytes(w[3]))) {
		if (is_off() || is_past(PAGES * PAGE, offset, len))
			return 1;
		put_bytes(area, offset, len);
		if (is(w[0], "fatomic"))
			persist_lines(area, offset, len);
		say("ok");
		return 1;
	}
	if (!number(w[3], &len))
		return 0;
	if (is(w[0], "flush") || is(w[0], "sync")) {
		if (is_off() || is_past(PAGES * PAGE, offset, len))
			return 1;
		persist_lines(area, offset, len);
		say("ok");
		return 1;
	}
	if (is(w[0], "load") || is(w[0], "fread")) {
		if (!is_off() && !is_past(PAGES * PAGE, offset, len))
			say_data(last + area * LINE + offset, len);
		return 1;
	}
	return 0;
}

/* What befalls the line of a byte. */
static void befall(struct word what, uint64_t offset)
{
	struct line *l;

	if (is_off())
		return;
	if (offset >= size) {
		say("refused range");
		return;
	}
	if (!is_there[offset / PAGE]) {
		say("refused nothing");
		return;
	}
	l = &lines[offset / LINE];
	if (is(what, "clear") && !l->is_bad) {
		say("refused notpoisoned");
		return;
	}
	if (is(what, "clear"))
		clear(offset / LINE);
	else if (is(what, "weaken"))
		l->is_weak = !l->is_bad;
	else
		l->is_bad = 1, l->is_weak = 0;
	say("ok");
}

static void command(const struct word *w, size_t k)
{
	uint64_t offset, len;

	if (k == 3 && number(w[1], &offset)) {
		if (is(w[0], "vstore") && (len = bytes(w[2]))) {
			vstore(offset, len);
			return;
		}
		if (is(w[0], "vsync") && number(w[2], &len)) {
			vsync(offset, len);
			return;
		}
		if (is(w[0], "vload") && number(w[2], &len)) {
			if (!is_off() && !is_outside(offset, len) && !is_poisoned(offset, len, 0))
				say_data(last + offset, len);
			return;
		}
		if (on_blocks(w, offset))
			return;
	}
	if (is(w[0], "create") && k == 3) {
		say("ok");
		return;
	}
	if (is(w[0], "map") && k == 5) {
		say("handle 0");
		return;
	}
	if (k == 4 && number(w[2], &offset) && on_file(w, offset))
		return;
	if (k == 3 && is(w[1], "volume") && number(w[2], &offset)
	    && (is(w[0], "poison") || is(w[0], "weaken") || is(w[0], "clear"))) {
		befall(w[0], offset);
		return;
	}
	if (k == 1 && is(w[0], "cut")) {
		if (!is_off())
			say("ok");
		is_on = 0;
		return;
	}
	if (k == 2 && is(w[0], "restart") && (is(w[1], "none") || is(w[1], "all"))) {
		restart(w[1].n == 3 ? ALL : NONE, 0);
		return;
	}
	if (k == 3 && is(w[0], "restart") && is(w[1], "seed") && number(w[2], &offset)) {
		restart(SEED, offset);
		return;
	}
	say("refused syntax");
}

static void line(const uint8_t *p, size_t n)
{
	struct word w[6];
	size_t k = 0, i = 0;

	if (n > MOST) {
		say("refused toolong");
		return;
	}
	if (n && p[n - 1] == '\r')
		n--;
	while (k < 6) {
		while (i < n && (p[i] == ' ' || p[i] == '\t'))
			i++;
		if (i == n)
			break;
		w[k].p = p + i;
		while (i < n && p[i] != ' ' && p[i] != '\t')
			i++;
		w[k].n = (size_t)(p + i - w[k].p);
		k++;
	}
	if (k && w[0].p[0] != '#')
		command(w, k);
}

/* Where the lines of so many pages lie: half of them, rounded up, behind the metadata, the others behind the blocks. */
static int set_up(uint64_t blocks, uint64_t pages)
{
	uint64_t metadata = 1 + 17 + blocks / 8 + 65 + (pages + 7) / 8 + 69 + 64 + 2048;

	size = PAGE * pages;
	if (size > sizeof last)
		return 0;
	first_line = (metadata + 63) / 64 * 64;
	first_half = (pages + 1) / 2 * (PAGE / LINE);
	second_line = first_line + first_half + 8 * (blocks + 64);
	for (uint64_t n = 0; n < LINES; n++)
		clear(n);
	return 1;
}

int main(int argc, char **argv)
{
	uint8_t *script = NULL, *end;
	size_t len = 0, room = 0;
	ssize_t n;

	if (argc != 5)
		return 2;
	if (!set_up(strtoull(argv[2], NULL, 10), strtoull(argv[3], NULL, 10)))
		return 2;
	do {
		if (len == room && !(script = realloc(script, room = 2 * room + MOST)))
			return 6;
		n = read(0, script + len, room - len);
		len += n > 0 ? (size_t)n : 0;
	} while (n > 0 || (n < 0 && errno == EINTR));
	for (uint8_t *p = script; p < script + len; p = end + 1) {
		end = memchr(p, '\n', (size_t)(script + len - p));
		end = end ? end : script + len;
		line(p, (size_t)(end - p));
	}
	flush();
	return 0;
}
