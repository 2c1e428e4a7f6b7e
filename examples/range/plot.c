/*
 * plot.c: what the host has measured, as a table and as a polar plot with the figures of a data sheet.
 * The plot is SVG. Its lengths are in tenths of a unit, and whole numbers: so each machine writes the same.
 */
#include "plot.h"

#include <stdio.h>

#define CENTRE_X 4000
#define CENTRE_Y 4220
#define RIM      3000 /* the circle of the peak */
#define DEPTH    400  /* the centre is so many tenths of dB below the peak */

/* What made the host measure again: the colour and the name of each fate from LOST on. */
static const struct {
    const char *colour, *name;
} marks[FATES] = {
    [LOST] = {"#8e44ad", "lost in the mast's full ring"},
    [BUSY] = {"#d4a017", "channel busy"},
    [CANCELLED] = {"#e8590c", "cancelled by a SET_CONFIG"},
    [FAULTED] = {"#c0182b", "cancelled by a radio fault"},
    [UNREPORTED] = {"#0b8a6f", "session timed out, no report"},
};

void plot_table(const struct host *h)
{
    printf("angle  level/dBm  snr/dB  lost\n");
    for (int azimuth = 0; azimuth < ANGLES; azimuth++) {
        const struct row *row = &h->rows[azimuth];

        printf("%5d  %9.1f  %6.1f  %4d\n", azimuth, host_level(row) / 10.0,
               host_snr(row) / 10.0, row->fates[LOST]);
    }
}

/* The figures of a data sheet, read off the table. Levels and the two half-power angles are in tenths. */
struct figures {
    int peak, peak_at, left, right, back;
};

/* How far to one side of the peak the level has fallen by 3 dB: tenths of a degree, between two rows. */
static int half_power(const struct host *h, const struct figures *f, int side)
{
    for (int step = 1, before = 0; step < ANGLES / 2; step++) {
        int fall = f->peak - host_level(&h->rows[(f->peak_at + side * step + ANGLES) % ANGLES]);

        if (fall >= 30)
            return 10 * (step - 1) + (int)rounded(10 * (30 - before), fall - before);
        before = fall;
    }
    return 10 * ANGLES / 2;
}

/* The back is the highest level within 30 degrees of the direction opposite to the peak. */
static struct figures figures_of(const struct host *h)
{
    struct figures f = {host_level(&h->rows[0]), 0, 0, 0, -32768};

    for (int azimuth = 1; azimuth < ANGLES; azimuth++)
        if (host_level(&h->rows[azimuth]) > f.peak) {
            f.peak = host_level(&h->rows[azimuth]);
            f.peak_at = azimuth;
        }
    f.left = half_power(h, &f, -1);
    f.right = half_power(h, &f, 1);
    for (int off = ANGLES / 2 - 30; off <= ANGLES / 2 + 30; off++) {
        int level = host_level(&h->rows[(f.peak_at + off) % ANGLES]);

        f.back = level > f.back ? level : f.back;
    }
    return f;
}

/* The sine of an angle in tenths of a degree, times 2^30: its power series, in whole numbers. */
static long long sine(int tenths)
{
    long long x, square, sum = 1LL << 30;

    tenths = (tenths % 3600 + 3600) % 3600;
    if (tenths >= 1800)
        return -sine(tenths - 1800);
    x = (tenths > 900 ? 1800 - tenths : tenths) * 3373259426LL / 1800; /* pi times 2^30 */
    square = x * x >> 30;
    for (int n = 12; n >= 2; n -= 2)
        sum = (1LL << 30) - (square * sum >> 30) / (n * (n + 1));
    return x * sum >> 30;
}

/* Writes a point by its direction, 0 degrees up and 90 right, and its distance from the centre. */
static void point(FILE *f, const char *format, int tenths, int distance)
{
    fprintf(f, format, (double)(CENTRE_X + rounded(distance * sine(tenths), 1LL << 30)) / 10,
            (double)(CENTRE_Y - rounded(distance * sine(tenths + 900), 1LL << 30)) / 10);
}

/* Writes a line that points away from the centre. */
static void spoke(FILE *f, int tenths, int from, int to, const char *style, const char *colour)
{
    point(f, "<path d=\"M%.1f %.1f", tenths, from);
    point(f, "L%.1f %.1f\"", tenths, to);
    fprintf(f, " class=\"%s\" stroke=\"%s\"/>\n", style, colour);
}

/* How far from the centre a fall below the peak stands. */
static int distance_of(int fall)
{
    return fall > DEPTH ? 0 : (int)rounded(RIM * (DEPTH - fall), DEPTH);
}

/* Rings every 5 dB, spokes every 30 degrees, and the labels of the spokes. */
static void plot_grid(FILE *f)
{
    for (int fall = 0; fall < DEPTH; fall += 50)
        fprintf(f, "<circle cx=\"%.1f\" cy=\"%.1f\" r=\"%.1f\" fill=\"none\" stroke=\"%s\"/>\n",
                CENTRE_X / 10.0, CENTRE_Y / 10.0, distance_of(fall) / 10.0,
                fall == 0 ? "#56636e" : fall % 100 ? "#e9edf0" : "#c9d1d8");
    for (int azimuth = 0; azimuth < ANGLES; azimuth += 10) {
        spoke(f, 10 * azimuth, azimuth % 30 ? RIM - 60 : 0, RIM, "g", azimuth % 30 ? "#56636e" : "#d6dde2");
        if (azimuth % 30 == 0) {
            point(f, "<text x=\"%.1f\" y=\"%.1f\" dy=\"5\" class=\"a\">", 10 * azimuth, RIM + 330);
            fprintf(f, "%d&#176;</text>\n", azimuth);
        }
    }
}

/* The curve, the half-power directions, and the labels of the rings, which stand on top. */
static void plot_curve(FILE *f, const struct host *h, const struct figures *g)
{
    fprintf(f, "<path class=\"c\" d=\"M");
    for (int azimuth = 0; azimuth < ANGLES; azimuth++)
        point(f, azimuth % 8 == 7 ? "%.1f %.1f\n" : "%.1f %.1f ", 10 * azimuth,
              distance_of(g->peak - host_level(&h->rows[azimuth])));
    fprintf(f, "Z\"/>\n");
    spoke(f, 10 * g->peak_at - g->left, 0, RIM, "h", "#174f7a");
    spoke(f, 10 * g->peak_at + g->right, 0, RIM, "h", "#174f7a");
    for (int fall = 0; fall < DEPTH; fall += 100) {
        point(f, "<text x=\"%.1f\" y=\"%.1f\" dy=\"4\" class=\"r\">", 1055, distance_of(fall));
        fprintf(f, "%s%d dB</text>\n", fall == 0 ? "" : "&#8722;", fall / 10);
    }
}

/* The angles that were measured again, on the rim and on the curve, and what the colours mean. */
static void plot_marks(FILE *f, const struct host *h, const struct figures *g)
{
    int y = 803;

    for (int fate = LOST; fate < FATES; fate++, y += 18) {
        int shots = 0;

        for (int azimuth = 0; azimuth < ANGLES; azimuth++) {
            const struct row *row = &h->rows[azimuth];

            if (row->fates[fate] == 0)
                continue;
            shots += row->fates[fate];
            spoke(f, 10 * azimuth, RIM + 30, RIM + 150, "m", marks[fate].colour);
            point(f, "<circle cx=\"%.1f\" cy=\"%.1f\" r=\"3.6\"", 10 * azimuth,
                  distance_of(g->peak - host_level(row)));
            fprintf(f, " fill=\"%s\" stroke=\"#fff\"/>\n", marks[fate].colour);
        }
        fprintf(f, "<path d=\"M430 %dv12\" class=\"m\" stroke=\"%s\"/>\n", y - 10, marks[fate].colour);
        fprintf(f, "<text x=\"446\" y=\"%d\">%d %s</text>\n", y, shots, marks[fate].name);
    }
}

void plot_svg(const struct host *h, const char *path)
{
    struct figures g = figures_of(h);
    FILE *f = fopen(path, "w");

    if (f == NULL)
        give_up("the plot cannot be written");
    fprintf(f, "<svg xmlns=\"http://www.w3.org/2000/svg\" viewBox=\"0 0 800 890\">\n"
            "<style>text{font:13px Helvetica,Arial,sans-serif;fill:#3d4852}\n"
            ".t{font-size:23px;font-weight:bold}.a{font-size:14px;text-anchor:middle}.b{font-weight:bold}\n"
            ".m{stroke-width:4}.g{stroke-width:1}.h{stroke-dasharray:5 4;stroke-opacity:.7}\n"
            ".r{font-size:11px;text-anchor:middle;stroke:#fff;stroke-width:3px;paint-order:stroke}\n"
            ".c{fill:#2b7bb9;fill-opacity:.2;stroke:#174f7a;stroke-width:2;stroke-linejoin:round}</style>\n"
            "<rect width=\"800\" height=\"890\" fill=\"#fff\"/>\n"
            "<text x=\"40\" y=\"44\" class=\"t\">Panel antenna, azimuth pattern</text>\n"
            "<text x=\"40\" y=\"66\">868.1 MHz, LoRa SF 10, %d dBm; %d angles, %d packets each</text>\n",
            POWER_DBM, ANGLES, SHOTS);
    plot_grid(f);
    plot_curve(f, h, &g);
    fprintf(f, "<text x=\"40\" y=\"803\">Peak</text>\n"
            "<text x=\"210\" y=\"803\" class=\"b\">%.1f dBm at %d&#176;</text>\n"
            "<text x=\"40\" y=\"827\">Half-power beam width</text>\n"
            "<text x=\"210\" y=\"827\" class=\"b\">%.1f&#176;</text>\n"
            "<text x=\"40\" y=\"851\">Front to back</text>\n"
            "<text x=\"210\" y=\"851\" class=\"b\">%.1f dB</text>\n"
            "<text x=\"430\" y=\"782\" class=\"b\">Measured again</text>\n",
            g.peak / 10.0, g.peak_at, (g.left + g.right) / 10.0, (g.peak - g.back) / 10.0);
    plot_marks(f, h, &g);
    fprintf(f, "</svg>\n");
    if (fclose(f) != 0)
        give_up("the plot cannot be written");
}
