/* A press, a drag, a release; a click; a feed cut short; then a job whose release is lost, and the clearing pass that lets it go. */
#include "fivvarul.h"
#include <stdio.h>
#include <string.h>

#define PLACES 66 /* of an id buffer */
#define COUNT(a) (sizeof(a) / sizeof(a)[0])

static FivvarulPanel panel;
static FivvarulSet set;

static uint32_t bits(float x) {
    uint32_t w;
    memcpy(&w, &x, sizeof w);
    return w;
}

/* egui's options, and a screen of 800 by 480 points */
static FivvarulPass at(double time) {
    FivvarulPass given = {
        .time = time, .time_given = true, .max_x = 800, .max_y = 480, .screen_rect_given = true, .focused = true,
        .predicted_dt = 1.0f / 60, .smoothing_factor = 1, .pixels_per_point = 1, .line_scroll_speed = 40, .scroll_zoom_speed = 1.0f / 200,
        .max_click_dist = 6, .max_click_duration = 0.8, .max_double_click_delay = 0.3,
        .zoom_modifier = 16, .horizontal_scroll_modifier = 4, .vertical_scroll_modifier = 1,
    };
    return given;
}

/* A pass, and an interact that meets the job wherever the pointer is: the example has one widget. */
static void pass(const char *what, double time, const uint32_t *feed, size_t words) {
    static const uint64_t job[] = {101, 6}; /* id; sense: drag, focusable */
    uint64_t hovered[PLACES], within[PLACES];
    FivvarulRefusal r = fivvarul_panel_pass(&panel, at(time), feed, words);
    printf("%-14s", what);
    if (r.number) {
        printf("refused %u at %zu\n", r.number, r.index);
        return;
    }
    FivvarulSnapshot s = fivvarul_panel_interact(
        &panel, set.widgets, set.layers, job, COUNT(job), job, COUNT(job), false, 0, 0, true, job[0], job[1], hovered, PLACES, within, PLACES);
    FivvarulPosition p = fivvarul_panel_latest_pos(&panel);
    printf("down %d click %d", fivvarul_panel_any_down(&panel), fivvarul_panel_any_click(&panel));
    if (p.given) printf(" at %g %g", (double)p.x, (double)p.y);
    if (s.drag_started.given) printf(", drag of %llu starts", (unsigned long long)s.drag_started.id);
    if (s.drag_stopped.given) printf(", drag of %llu stops", (unsigned long long)s.drag_stopped.id);
    printf("\n");
}

int main(void) {
    const uint32_t press[] = {0x50000100, bits(10), bits(20)}, drag[] = {0x30000000, bits(60), bits(20)}, release[] = {0x50000000, bits(60), bits(20)};
    const uint32_t click[] = {0x50000100, bits(5), bits(5), 0x50000000, bits(5), bits(5)}, cut[] = {0x50000100, bits(10)};
    /* five releases, a relative motion, a wheel's end, the focus lost, the pointer gone */
    const uint32_t clearing[] = {0x50000000, 0, 0, 0x50000020, 0, 0, 0x50000040, 0, 0, 0x50000060, 0, 0, 0x50000080, 0, 0, 0x40000000, 0, 0, 0xa0000100, 0, 0, 0xb0000000, 0x60000000};
    FivvarulWidgetRect layer[4], job = {.id = 101, .parent_id = 1, .layer_id = {1, 1}, .rect = {{0, 0}, {180, 40}}, .interact_rect = {{0, 0}, {180, 40}}, .sense = 6, .enabled = true, .visible = true};
    memset(layer, 0, sizeof layer);
    fivvarul_panel_fresh(&panel);
    set = fivvarul_empty();
    FivvarulInsertion i = fivvarul_panel_insert(&panel, set, layer, COUNT(layer), job, false);
    set = i.set;
    printf("inserted %u, position %zu of %zu\n", i.answer.number, i.answer.position, i.answer.count);
    pass("press", 1.0, press, COUNT(press));
    pass("drag", 1.1, drag, COUNT(drag));
    pass("release", 1.2, release, COUNT(release));
    pass("click", 2.0, click, COUNT(click));
    pass("cut short", 3.0, cut, COUNT(cut));
    pass("press", 3.0, press, COUNT(press));
    pass("drag", 3.1, drag, COUNT(drag));
    pass("release lost", 3.2, press, 0);
    pass("clearing", 3.3, clearing, COUNT(clearing));
    pass("click", 4.0, click, COUNT(click));
    printf("%u drags started, a panel has %zu bytes\n", fivvarul_panel_tally(&panel), sizeof panel);
    return 0;
}
