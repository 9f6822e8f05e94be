/* The bars of a view as an SVG file; see picture.h. Lengths are in pixels, of a picture 900 wide. */
#include "picture.h"
#include "refusals.h"

#include <errno.h>
#include <stdarg.h>
#include <stdio.h>
#include <string.h>

enum { WIDTH = 900, LEFT = 92, COLUMN = 16, BAR = 12, HALF = 150, LINE = 17, HEAD = 106, FOOT = 122, BETWEEN_TICKS = 28 };
/* A volume too small for the scale is still to be seen. Those of one standing are drawn as one: each for itself SMALLEST high, many of them would be a
 * bar that is believed and far too long. So a stack is at most this much longer than it should be. */
enum { SMALLEST = 2, MOST_TOO_LONG = SMALLEST * NOTHING };
/* Of many refusals the box on top has the first few, and all of them stand under the bars. */
enum { LINES_IN_BOX = 4 };
/* Of a period's column: where the two sides disagree, this account's figure is left and the other's right. */
enum part { WHOLE, LEFT_HALF, RIGHT_HALF, PARTS };

static const char *const classes[] = {"agreed", "disagreed", "own", "other"};

typedef struct {
    FILE *file;
    double pixels_a_kwh;
    unsigned refusals; /* lines that tell them */
    int top, axis;     /* what the box of refusals takes, and where the line is */
} picture;

/* How far a period's bars reach up and down already, in its left and its right half. */
typedef struct {
    double up[2], down[2];
} reach;

/* Volumes of one standing and direction that are too small for the scale. */
typedef struct {
    long long kwh;
    unsigned count;
    const identifier *one; /* of them */
} crumbs;

static void text_at(const picture *to, double x, double y, const char *attributes, const char *format, ...) {
    va_list values;
    va_start(values, format);
    fprintf(to->file, "<text x=\"%.1f\" y=\"%.1f\" %s>", x, y, attributes);
    vfprintf(to->file, format, values);
    fprintf(to->file, "</text>\n");
    va_end(values);
}

static void begin_picture(const picture *to, int height) {
    fprintf(to->file,
            "<svg xmlns=\"http://www.w3.org/2000/svg\" viewBox=\"0 0 %d %d\" width=\"%d\" height=\"%d\" font-family=\"sans-serif\" font-size=\"13\">\n"
            "<style>.agreed{fill:#0072b2;stroke:#fff;stroke-width:.6}.disagreed{fill:url(#hatch);stroke:#a63c00}.own{fill:#fff;stroke:#222;stroke-width:2}"
            ".other{fill:#fff;stroke:#222;stroke-width:1.5;stroke-dasharray:3 2}.closed{fill:#e4e4e4}.tick{stroke:#c8c8c8}"
            ".axis{stroke:#000;stroke-width:1.5}.missing{fill:#fff0f0;stroke:#a00000;stroke-width:2}"
            ".zero-agreed{fill:none;stroke:#0072b2;stroke-width:1.3}.zero-disagreed{fill:none;stroke:#a63c00;stroke-width:1.3}"
            ".zero-own{fill:none;stroke:#222;stroke-width:1.3}.zero-other{fill:none;stroke:#222;stroke-width:1.3;stroke-dasharray:2 1.2}</style>\n"
            "<defs><pattern id=\"hatch\" width=\"5\" height=\"5\" patternUnits=\"userSpaceOnUse\" patternTransform=\"rotate(45)\">"
            "<rect width=\"5\" height=\"5\" fill=\"#fff\"/><rect width=\"2.2\" height=\"5\" fill=\"#d55e00\"/></pattern></defs>\n"
            "<rect width=\"%d\" height=\"%d\" fill=\"#fff\"/>\n", WIDTH, height, WIDTH, height, WIDTH, height);
}

static long long kwh_of(double mwh) { return (long long)(mwh * 1000 + (mwh < 0 ? -0.5 : 0.5)); }

/* A bar's kWh in a part of its column; the whole of a bar whose sides disagree has none. */
static long long kwh_in(const bar *shown, enum part part) {
    if (shown->standing == DISAGREED) return kwh_of(part == LEFT_HALF ? shown->own : part == RIGHT_HALF ? shown->other : 0);
    return kwh_of(shown->standing == OTHER_ONLY ? shown->other : shown->own);
}

/* kWh stacked in a half of a period, of those sold (direction 1) or bought (direction -1). */
static double stacked(const view *seen, unsigned period, enum part half, int direction) {
    double sum = 0;
    for (unsigned i = 0; i < seen->count; i++) {
        double kwh = (double)(direction * kwh_in(&seen->seen[i].bars[period - 1], half));
        if (kwh > 0) sum += kwh;
    }
    return sum;
}

static double longest_stack(const view *seen) {
    double longest = 0;
    for (unsigned period = 1; period <= seen->periods; period++)
        for (enum part half = LEFT_HALF; half <= RIGHT_HALF; half++)
            for (int direction = -1; direction <= 1; direction += 2)
                if (stacked(seen, period, half, direction) > longest) longest = stacked(seen, period, half, direction);
    return longest;
}

/* 1, 2 or 5 and noughts, far enough apart to be read. */
static long long tick_step(double pixels_a_kwh) {
    long long step = 1;
    for (int k = 0; (double)step * pixels_a_kwh < BETWEEN_TICKS; k++) step = k % 3 == 1 ? step / 2 * 5 : step * 2;
    return step;
}

static void draw_tick(const picture *to, long long kwh, long long step, double right) {
    double y = to->axis - (double)kwh * to->pixels_a_kwh;
    long long mwh = (kwh < 0 ? -kwh : kwh) / 1000;
    const char *attributes = "text-anchor=\"end\" font-size=\"12\" class=\"scale\"", *sign = kwh < 0 ? "-" : "";
    fprintf(to->file, "<line class=\"tick\" x1=\"%d\" x2=\"%.0f\" y1=\"%.2f\" y2=\"%.2f\"/>\n", LEFT - 4, right, y, y);
    if (mwh >= 1000000) text_at(to, LEFT - 8, y + 4, attributes, "%s%lld,%03lld,%03lld", sign, mwh / 1000000, mwh / 1000 % 1000, mwh % 1000);
    else if (mwh >= 1000) text_at(to, LEFT - 8, y + 4, attributes, "%s%lld,%03lld", sign, mwh / 1000, mwh % 1000);
    else text_at(to, LEFT - 8, y + 4, attributes, "%.*f", step >= 1000 ? 0 : step >= 100 ? 1 : step >= 10 ? 2 : 3, (double)kwh / 1000);
}

static void draw_upright(const picture *to, int y, const char *words) {
    char attributes[96];
    snprintf(attributes, sizeof attributes, "transform=\"translate(14 %d) rotate(-90)\" text-anchor=\"middle\" font-weight=\"bold\"", y);
    text_at(to, 0, 0, attributes, "%s", words);
}

/* The same scale up and down, so that the two accounts of a contract have mirrored pictures. */
static void draw_scale(const picture *to, const view *seen) {
    double right = LEFT + COLUMN * (double)seen->periods;
    long long step = tick_step(to->pixels_a_kwh);
    if (seen->closed > 0)
        fprintf(to->file, "<rect class=\"closed\" x=\"%d\" y=\"%d\" width=\"%u\" height=\"%d\"/>\n", LEFT, to->axis - HALF, COLUMN * seen->closed, 2 * HALF);
    for (long long kwh = 0; (double)kwh * to->pixels_a_kwh <= HALF; kwh += step) {
        draw_tick(to, kwh, step, right);
        if (kwh > 0) draw_tick(to, -kwh, step, right);
    }
    fprintf(to->file, "<line class=\"axis\" x1=\"%d\" x2=\"%.0f\" y1=\"%d\" y2=\"%d\"/>\n", LEFT, right, to->axis, to->axis);
    draw_upright(to, to->axis - 75, "sold, MWh");
    draw_upright(to, to->axis + 75, "bought, MWh");
    for (unsigned period = 1; period <= seen->periods; period++)
        text_at(to, LEFT + COLUMN * (period - 0.5), to->axis + HALF + 52, "text-anchor=\"middle\" font-size=\"10\" class=\"period\"", "%u", period);
    text_at(to, LEFT - 8, to->axis + HALF + 52, "text-anchor=\"end\" font-size=\"12\"", "period");
}

/* Under the bars, so that no zero can be taken for a volume: a row of rings for what is agreed at zero, one for what one side says, and one for what
 * a side says of a disagreement. */
static double zero_row(const picture *to, enum standing standing) {
    return to->axis + HALF + 11 + 11 * (standing == AGREED ? 0 : standing == DISAGREED ? 2 : 1);
}

static void draw_zero(const picture *to, const identifier *one, unsigned period, enum part part) {
    enum standing standing = one->bars[period - 1].standing;
    double aside = standing == AGREED ? 0 : standing == OTHER_ONLY || part == RIGHT_HALF ? 3.8 : -3.8;
    fprintf(to->file, "<circle class=\"zero-%s\" cx=\"%.1f\" cy=\"%.1f\" r=\"3\">", classes[standing], LEFT + COLUMN * (period - 0.5) + aside,
            zero_row(to, standing));
    fprintf(to->file, "<title>period %u, %u/%u with account %u, %s: stated 0.000 MWh</title></circle>\n", period, one->originator, one->reference, one->other,
            standing_words[standing]);
}

/* A rectangle on what its part of the column holds already, without its title. */
static void draw_rectangle(const picture *to, enum standing standing, unsigned period, enum part part, long long kwh, reach *reached) {
    int first = part == RIGHT_HALF, last = part != LEFT_HALF;
    double *taken = kwh < 0 ? reached->down : reached->up;
    double height = (double)(kwh < 0 ? -kwh : kwh) * to->pixels_a_kwh;
    if (height < SMALLEST) height = SMALLEST;
    double top = kwh < 0 ? to->axis + taken[first] : to->axis - taken[first] - height;
    double x = LEFT + COLUMN * (period - 1) + (COLUMN - BAR) / 2.0 + first * (BAR / 2.0);
    fprintf(to->file, "<rect class=\"%s\" x=\"%.1f\" y=\"%.2f\" width=\"%d\" height=\"%.2f\">", classes[standing], x, top, BAR / 2 * (last - first + 1), height);
    for (int half = first; half <= last; half++) taken[half] += height;
}

static void draw_title(const picture *to, enum standing standing, long long kwh) {
    fprintf(to->file, "%s: %s %.3f MWh</title></rect>\n", standing_words[standing], kwh < 0 ? "bought" : "sold", (double)(kwh < 0 ? -kwh : kwh) / 1000);
}

static void draw_volume(const picture *to, const identifier *one, unsigned period, enum part part, long long kwh, reach *reached) {
    enum standing standing = one->bars[period - 1].standing;
    draw_rectangle(to, standing, period, part, kwh, reached);
    fprintf(to->file, "<title>period %u, %u/%u with account %u, ", period, one->originator, one->reference, one->other);
    draw_title(to, standing, kwh);
}

static void draw_crumbs(const picture *to, unsigned period, enum part part, const crumbs *small, reach *reached) {
    enum standing standing = small->one->bars[period - 1].standing;
    if (small->count == 1) {
        draw_volume(to, small->one, period, part, small->kwh, reached);
        return;
    }
    draw_rectangle(to, standing, period, part, small->kwh, reached);
    fprintf(to->file, "<title>period %u, %u volumes too small to be drawn apart, ", period, small->count);
    draw_title(to, standing, small->kwh);
}

static void draw_part(const picture *to, const identifier *one, unsigned period, enum part part, crumbs small[2], reach *reached) {
    long long kwh = kwh_in(&one->bars[period - 1], part);
    crumbs *smaller = &small[kwh < 0];
    if (kwh == 0) draw_zero(to, one, period, part);
    else if ((double)(kwh < 0 ? -kwh : kwh) * to->pixels_a_kwh < SMALLEST) *smaller = (crumbs){smaller->kwh + kwh, smaller->count + 1, one};
    else draw_volume(to, one, period, part, kwh, reached);
}

/* All of a standing in a period: of a disagreement the two halves, of all else the whole. */
static void draw_standing(const picture *to, const view *seen, unsigned period, enum standing standing, reach *reached) {
    for (enum part part = WHOLE; part < PARTS; part++) {
        crumbs small[2] = {{0, 0, NULL}, {0, 0, NULL}};
        if ((part == WHOLE) == (standing == DISAGREED)) continue;
        for (unsigned i = 0; i < seen->count; i++)
            if (seen->seen[i].bars[period - 1].standing == standing) draw_part(to, &seen->seen[i], period, part, small, reached);
        for (int bought = 0; bought <= 1; bought++)
            if (small[bought].count > 0) draw_crumbs(to, period, part, &small[bought], reached);
    }
}

/* What is agreed stands on the line, and what is not is stacked outside it, halves last. */
static void draw_period(const picture *to, const view *seen, unsigned period) {
    reach reached = {{0, 0}, {0, 0}};
    draw_standing(to, seen, period, AGREED, &reached);
    draw_standing(to, seen, period, OWN_ONLY, &reached);
    draw_standing(to, seen, period, OTHER_ONLY, &reached);
    draw_standing(to, seen, period, DISAGREED, &reached);
}

static void draw_legend(const picture *to) {
    static const struct { const char *look, *words; int x; } entries[] = {
        {"agreed", "agreed", 92}, {"disagreed", "disagreed (left: this account, right: the other)", 176},
        {"own", "this account only", 508}, {"other", "the other only", 658}, {"closed", "gate closed", 788}};
    static const struct { enum standing standing; const char *words; } rows[] = {
        {AGREED, "agreed at 0"}, {OWN_ONLY, "one side at 0"}, {DISAGREED, "disagreed at 0"}};
    int y = to->axis + HALF + 72;
    for (size_t k = 0; k < sizeof entries / sizeof entries[0]; k++) {
        fprintf(to->file, "<rect class=\"%s\" x=\"%d\" y=\"%d\" width=\"14\" height=\"14\"/>\n", entries[k].look, entries[k].x, y);
        text_at(to, entries[k].x + 20, y + 11, "font-size=\"12\"", "%s", entries[k].words);
    }
    for (size_t k = 0; k < sizeof rows / sizeof rows[0]; k++)
        text_at(to, LEFT - 8, zero_row(to, rows[k].standing) + 3.5, "text-anchor=\"end\" font-size=\"10\"", "%s", rows[k].words);
    text_at(to, LEFT, y + 34, "font-size=\"12\" fill=\"#444\"",
            "Only agreed volumes count. A ring under the bars is a stated zero, no volume; where nothing stands there is neither bar nor ring.");
}

static void draw_not_agreed(const picture *to, const view *seen, int y, const char *words, int closed) {
    text_at(to, LEFT, to->top + y, "", "%s: %u disagreed, %u said by this account only, %u said by the other only", words, seen->volumes[DISAGREED][closed],
            seen->volumes[OWN_ONLY][closed], seen->volumes[OTHER_ONLY][closed]);
}

static void draw_words(const picture *to, const view *seen) {
    text_at(to, LEFT, to->top + 28, "font-size=\"19\" font-weight=\"bold\"", "Account %u on day %u (%s)", seen->account, seen->day, date_of(seen->day));
    text_at(to, LEFT, to->top + 51, "font-size=\"15\"", "sold %.3f MWh, bought %.3f MWh, net %.3f MWh", seen->figures.sold, seen->figures.bought,
            seen->figures.net);
    draw_not_agreed(to, seen, 72, "not agreed yet (gate open)", 0);
    draw_not_agreed(to, seen, 91, "never agreed (gate closed)", 1);
    if (stands_nothing(seen)) text_at(to, LEFT + 20, to->axis - 30, "font-weight=\"bold\"", "Nothing stands for this account on this day.");
}

/* ---- what is missing in the picture, on top of it and where there is much of it once more below, whole */

static unsigned count_refusals(const story *told) {
    char line[MOST_LINE];
    unsigned count = 0;
    for (size_t at = 0; next_refusal(told, &at, line);) count++;
    return count;
}

static void draw_refusals(const picture *to, const story *told, int y, unsigned most) {
    char line[MOST_LINE];
    size_t at = 0;
    for (unsigned k = 0; k < most && next_refusal(told, &at, line); k++) text_at(to, 28, y + LINE * (int)k, "class=\"refusal\" fill=\"#a00000\"", "%s", line);
}

static void draw_box(const picture *to, const story *told) {
    char line[MOST_LINE];
    unsigned shown = to->refusals <= LINES_IN_BOX ? to->refusals : LINES_IN_BOX - 1;
    tell_missing(told, line);
    fprintf(to->file, "<rect class=\"missing\" x=\"12\" y=\"8\" width=\"%d\" height=\"%d\"/>\n", WIDTH - 24, to->top - 8);
    /* A long line is smaller, so that its end is not outside the picture. */
    text_at(to, 28, 31, strlen(line) > 70 ? "font-size=\"13\" font-weight=\"bold\" fill=\"#a00000\"" : "font-size=\"16\" font-weight=\"bold\" fill=\"#a00000\"",
            "INCOMPLETE: %s", line);
    draw_refusals(to, told, 51, shown);
    if (shown == to->refusals) return;
    text_at(to, 28, 51 + LINE * (int)shown, "font-weight=\"bold\" fill=\"#a00000\"", "and more: all that is missing is listed under the bars");
    draw_refusals(to, told, to->axis + HALF + FOOT + LINE, to->refusals);
}

static int height_of(const picture *to) {
    return to->axis + HALF + FOOT + (to->refusals > LINES_IN_BOX ? LINE * ((int)to->refusals + 1) : 0);
}

static void lay_out(picture *to, const view *seen) {
    double longest = longest_stack(seen);
    to->refusals = count_refusals(seen->told);
    to->top = to->refusals == 0 ? 0 : 48 + LINE * (to->refusals < LINES_IN_BOX ? (int)to->refusals : LINES_IN_BOX);
    to->axis = to->top + HEAD + HALF;
    to->pixels_a_kwh = (HALF - MOST_TOO_LONG) / (longest > 0 ? longest : 1000); /* without a volume the scale is of 1 MWh */
}

static void draw(picture *to, const view *seen) {
    lay_out(to, seen);
    begin_picture(to, height_of(to));
    draw_scale(to, seen);
    for (unsigned period = 1; period <= seen->periods; period++) draw_period(to, seen, period);
    draw_legend(to);
    draw_words(to, seen);
    if (to->refusals > 0) draw_box(to, seen->told);
}

static void draw_trouble(const picture *to, const char *trouble) {
    begin_picture(to, 120);
    text_at(to, LEFT, 48, "font-size=\"19\" font-weight=\"bold\" fill=\"#a00000\"", "Nothing to draw");
    fprintf(to->file, "<text x=\"%d\" y=\"72\" font-size=\"14\">", LEFT);
    for (const char *at = trouble; *at != '\0'; at++) /* a file's name may have any bytes, and some are no XML */
        fputc(*at < ' ' || *at > '~' || *at == '<' || *at == '>' || *at == '&' ? '?' : *at, to->file);
    fprintf(to->file, "</text>\n");
}

bool write_picture(const char *path, const view *seen, const char *trouble) {
    picture to = {.file = fopen(path, "w")};
    if (to.file == NULL) return false;
    if (trouble[0] == '\0') draw(&to, seen);
    else draw_trouble(&to, trouble);
    fprintf(to.file, "</svg>\n");
    bool failed = ferror(to.file) != 0;
    if (fclose(to.file) == 0 && !failed) return true;
    int why = errno;
    FILE *emptied = fopen(path, "w");
    if (emptied != NULL) fclose(emptied);
    errno = why;
    return false;
}
