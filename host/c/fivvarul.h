/* The panel for C. Made by host/boundary.py from crates/host and crates/host_questions, and checked against them by the gate: see docs/HOST.md.
 *
 * A FivvarulPanel is plain memory of the caller's, at any address aligned to 8: it may be copied and moved. fivvarul_panel_fresh makes it a
 * fresh panel; any other contents mean a panel too. A bool must be 0 or 1, a pointer must lead to as many places as its length says (with
 * length 0 it must not be null either), and no two lent places may overlap. An answer's number is 0 where the call was taken, else that of the refusal, and all is as before.
 */
#ifndef FIVVARUL_H
#define FIVVARUL_H
#include <stdbool.h>
#include <stddef.h>
#include <stdint.h>

#ifdef __cplusplus
extern "C" {
#endif

#define FIVVARUL_CODES 256
#define FIVVARUL_COUNTS 4
#define FIVVARUL_DEVICE_FLAGS 14
#define FIVVARUL_DEVICE_FLOATS 48
#define FIVVARUL_EDGES 8192
#define FIVVARUL_FLAGS 46
#define FIVVARUL_FLOATS 36
#define FIVVARUL_HELD 3
#define FIVVARUL_IDS 12
#define FIVVARUL_KEYS 4
#define FIVVARUL_MAX_DEVICES 4
#define FIVVARUL_MAX_LEN 1000
#define FIVVARUL_MAX_SLOTS 10
#define FIVVARUL_NUMBERS 5184
#define FIVVARUL_PARTS 2000
#define FIVVARUL_PLACES 128
#define FIVVARUL_PRESSES 145
#define FIVVARUL_SECONDS 9
#define FIVVARUL_WORDS 2080

/* `number` 0, and the factor; or 02's number of the refusal, and 0. */
typedef struct {
    float factor;
    uint32_t number;
} FivvarulFactor;

/* How many widgets and layers a set has. */
typedef struct {
    size_t widgets;
    size_t layers;
} FivvarulSet;

/* `order` is a plain number, so that one over 4 can be given and refused. */
typedef struct {
    uint32_t order;
    uint64_t id;
} FivvarulLayerId;

/* A position on the screen. `repr(C)` here and in Rect, LayerId and WidgetRect: a host lends its widgets as they stand. */
typedef struct {
    float x;
    float y;
} FivvarulPos2;

typedef struct {
    FivvarulPos2 min;
    FivvarulPos2 max;
} FivvarulRect;

/* `sense` is a plain number of sense.rs's bits, so that an unnamed bit can be given and refused. */
typedef struct {
    uint64_t id;
    uint64_t parent_id;
    FivvarulLayerId layer_id;
    FivvarulRect rect;
    FivvarulRect interact_rect;
    uint32_t sense;
    bool enabled;
    bool visible;
} FivvarulWidgetRect;

/* `number` 0: the widget's position in its layer, and how many widgets its layer has now. Else 01's number of the refusal, and zeros; its index is 0. */
typedef struct {
    uint32_t number;
    size_t position;
    size_t count;
} FivvarulInserted;

/* The answer, the set after it, and what was done to the lent slice: the record at `from` went, each after it up to `to` fell by one, and `widget` came last. */
typedef struct {
    FivvarulInserted answer;
    FivvarulSet set;
    size_t from;
    size_t to;
    FivvarulWidgetRect widget;
} FivvarulInsertion;

/* Option<Id> */
typedef struct {
    uint64_t id;
    bool given;
} FivvarulId;

/* The answer of an interact. `number` 0: taken, and the counts are those of the two id buffers. Else 01's number of the refusal, and the index where 01 returns one, or 0; every other field is 0. */
typedef struct {
    uint32_t number;
    size_t index;
    FivvarulId clicked;
    FivvarulId long_touched;
    FivvarulId drag_started;
    FivvarulId dragged;
    FivvarulId drag_stopped;
    size_t hovered;
    size_t contains_pointer;
} FivvarulSnapshot;

/* A tracking id, the kernel's -1 for no finger, and the last position. Kept (C): `repr(C)` here and below, and no Option: a host keeps the slots from call to call, and C reads them. */
typedef struct {
    int32_t id;
    int32_t x;
    int32_t y;
} FivvarulFinger;

/* A slot's finger now, and at the last report end acted on. */
typedef struct {
    FivvarulFinger now;
    FivvarulFinger acted;
} FivvarulSlot;

/* `skipping`: after 'dropped', through the next report end. */
typedef struct {
    FivvarulSlot slots[FIVVARUL_MAX_SLOTS];
    size_t chosen;
    bool skipping;
} FivvarulKernelTouches;

/* `number` 0: the words written to the feed, and whether the records held a 'dropped'. Else 02's number of the refusal; `kernel` is as before then. C reads the number and the values beside it. */
typedef struct {
    FivvarulKernelTouches kernel;
    uint32_t number;
    size_t words;
    bool dropped;
} FivvarulKernelRead;

/* RawInput and the options. A time and a rectangle count where they are given. Modifiers are 01's five bits: alt, ctrl, shift, mac_cmd, command. */
typedef struct {
    double time;
    double max_click_duration;
    double max_double_click_delay;
    float min_x;
    float min_y;
    float max_x;
    float max_y;
    float predicted_dt;
    float smoothing_factor;
    float pixels_per_point;
    float line_scroll_speed;
    float scroll_zoom_speed;
    float max_click_dist;
    uint32_t zoom_modifier;
    uint32_t horizontal_scroll_modifier;
    uint32_t vertical_scroll_modifier;
    bool time_given;
    bool screen_rect_given;
    bool focused;
    bool requested_repaint;
} FivvarulPass;

/* 0, 0: taken. Else 01's number of the refusal, and the index where 01 returns one, or 0. */
typedef struct {
    uint32_t number;
    size_t index;
} FivvarulRefusal;

/* Option<Pos2> */
typedef struct {
    float x;
    float y;
    bool given;
} FivvarulPosition;

/* Option<f64>, in seconds */
typedef struct {
    double value;
    bool given;
} FivvarulSeconds;

/* Option<PointerEvent>: `kind` is 0 moved, 1 pressed, 2 released, 3 released with a click, whose count and modifiers follow */
typedef struct {
    uint32_t kind;
    uint32_t button;
    uint32_t count;
    uint32_t modifiers;
    FivvarulPos2 pos;
    bool given;
} FivvarulPointerEvent;

/* Vec2 */
typedef struct {
    float x;
    float y;
} FivvarulVector;

/* Option<Vec2> */
typedef struct {
    float x;
    float y;
    bool given;
} FivvarulMaybeVector;

/* Option<f32> */
typedef struct {
    float value;
    bool given;
} FivvarulNumber;

/* Option<MouseWheelSource>, by its number in the feed */
typedef struct {
    uint32_t number;
    bool given;
} FivvarulSource;

/* Option<MultiTouchInfo> */
typedef struct {
    double start_time;
    size_t num_touches;
    FivvarulPos2 start_pos;
    FivvarulPos2 center_pos;
    float zoom_delta;
    FivvarulVector zoom_delta_2d;
    FivvarulVector previous_heading;
    FivvarulVector heading;
    FivvarulVector translation_delta;
    float force;
    bool given;
} FivvarulGesture;

/* Option<WidgetRect> */
typedef struct {
    FivvarulWidgetRect widget;
    bool given;
} FivvarulWidget;

/* Option<(LayerId, usize)> */
typedef struct {
    FivvarulLayerId layer;
    size_t position;
    bool given;
} FivvarulOrder;

/* Option<LayerId> */
typedef struct {
    FivvarulLayerId layer;
    bool given;
} FivvarulLayer;

/* The host multiplies the factor by the exponential of the exponent. */
typedef struct {
    float factor;
    float exponent;
} FivvarulZoom;

/* The same by axis. */
typedef struct {
    float factor_x;
    float factor_y;
    float exponent_x;
    float exponent_y;
} FivvarulZoom2d;

/* A sum of radians; or, with `by_headings`, the previous and the current heading of a gesture, whose angle is the host's to take. */
typedef struct {
    bool by_headings;
    float radians;
    float previous_x;
    float previous_y;
    float x;
    float y;
} FivvarulRotation;

#ifndef __cplusplus
_Static_assert(sizeof(FivvarulFactor) == 8, "FivvarulFactor");
_Static_assert(sizeof(FivvarulSet) == 16, "FivvarulSet");
_Static_assert(sizeof(FivvarulLayerId) == 16, "FivvarulLayerId");
_Static_assert(sizeof(FivvarulPos2) == 8, "FivvarulPos2");
_Static_assert(sizeof(FivvarulRect) == 16, "FivvarulRect");
_Static_assert(sizeof(FivvarulWidgetRect) == 72, "FivvarulWidgetRect");
_Static_assert(sizeof(FivvarulInserted) == 24, "FivvarulInserted");
_Static_assert(sizeof(FivvarulInsertion) == 128, "FivvarulInsertion");
_Static_assert(sizeof(FivvarulId) == 16, "FivvarulId");
_Static_assert(sizeof(FivvarulSnapshot) == 112, "FivvarulSnapshot");
_Static_assert(sizeof(FivvarulFinger) == 12, "FivvarulFinger");
_Static_assert(sizeof(FivvarulSlot) == 24, "FivvarulSlot");
_Static_assert(sizeof(FivvarulKernelTouches) == 256, "FivvarulKernelTouches");
_Static_assert(sizeof(FivvarulKernelRead) == 280, "FivvarulKernelRead");
_Static_assert(sizeof(FivvarulPass) == 80, "FivvarulPass");
_Static_assert(sizeof(FivvarulRefusal) == 16, "FivvarulRefusal");
_Static_assert(sizeof(FivvarulPosition) == 12, "FivvarulPosition");
_Static_assert(sizeof(FivvarulSeconds) == 16, "FivvarulSeconds");
_Static_assert(sizeof(FivvarulPointerEvent) == 28, "FivvarulPointerEvent");
_Static_assert(sizeof(FivvarulVector) == 8, "FivvarulVector");
_Static_assert(sizeof(FivvarulMaybeVector) == 12, "FivvarulMaybeVector");
_Static_assert(sizeof(FivvarulNumber) == 8, "FivvarulNumber");
_Static_assert(sizeof(FivvarulSource) == 8, "FivvarulSource");
_Static_assert(sizeof(FivvarulGesture) == 80, "FivvarulGesture");
_Static_assert(sizeof(FivvarulWidget) == 80, "FivvarulWidget");
_Static_assert(sizeof(FivvarulOrder) == 32, "FivvarulOrder");
_Static_assert(sizeof(FivvarulLayer) == 24, "FivvarulLayer");
_Static_assert(sizeof(FivvarulZoom) == 8, "FivvarulZoom");
_Static_assert(sizeof(FivvarulZoom2d) == 16, "FivvarulZoom2d");
_Static_assert(sizeof(FivvarulRotation) == 24, "FivvarulRotation");
#endif

void fivvarul_fresh(double seconds[FIVVARUL_SECONDS], float floats[FIVVARUL_FLOATS], size_t counts[FIVVARUL_COUNTS], bool flags[FIVVARUL_FLAGS], uint64_t keys_down[FIVVARUL_KEYS], uint8_t presses[FIVVARUL_PRESSES], uint64_t held_ids[FIVVARUL_HELD], bool held_flags[FIVVARUL_HELD], uint32_t tally[1]);
FivvarulInsertion fivvarul_insert(FivvarulSet set, uint64_t words[FIVVARUL_WORDS], uint32_t numbers[FIVVARUL_NUMBERS], float edges[FIVVARUL_EDGES], FivvarulWidgetRect *layer, size_t layer_len, FivvarulWidgetRect widget, bool move_to_top);
FivvarulSnapshot fivvarul_interact(const double seconds[FIVVARUL_SECONDS], const float floats[FIVVARUL_FLOATS], const size_t counts[FIVVARUL_COUNTS], const bool flags[FIVVARUL_FLAGS], const uint64_t ids0[FIVVARUL_IDS], const float floats0[FIVVARUL_DEVICE_FLOATS], const bool flags0[FIVVARUL_DEVICE_FLAGS], const uint64_t ids1[FIVVARUL_IDS], const float floats1[FIVVARUL_DEVICE_FLOATS], const bool flags1[FIVVARUL_DEVICE_FLAGS], const uint64_t ids2[FIVVARUL_IDS], const float floats2[FIVVARUL_DEVICE_FLOATS], const bool flags2[FIVVARUL_DEVICE_FLAGS], const uint64_t ids3[FIVVARUL_IDS], const float floats3[FIVVARUL_DEVICE_FLOATS], const bool flags3[FIVVARUL_DEVICE_FLAGS], const double starts[FIVVARUL_MAX_DEVICES], const uint32_t codes[FIVVARUL_CODES], const uint8_t presses[FIVVARUL_PRESSES], uint64_t held_ids[FIVVARUL_HELD], bool held_flags[FIVVARUL_HELD], uint32_t tally[1], size_t widgets, size_t layers, const uint64_t words[FIVVARUL_WORDS], const uint32_t numbers[FIVVARUL_NUMBERS], const uint64_t *close, size_t close_len, const uint64_t *within, size_t within_len, bool click_given, uint64_t click_id, uint64_t click_sense, bool drag_given, uint64_t drag_id, uint64_t drag_sense, uint64_t *top, size_t top_len, uint64_t *all, size_t all_len);
FivvarulRefusal fivvarul_pass(double seconds[FIVVARUL_SECONDS], float floats[FIVVARUL_FLOATS], size_t counts[FIVVARUL_COUNTS], bool flags[FIVVARUL_FLAGS], uint64_t keys_down[FIVVARUL_KEYS], uint64_t ids0[FIVVARUL_IDS], float floats0[FIVVARUL_DEVICE_FLOATS], bool flags0[FIVVARUL_DEVICE_FLAGS], uint64_t ids1[FIVVARUL_IDS], float floats1[FIVVARUL_DEVICE_FLOATS], bool flags1[FIVVARUL_DEVICE_FLAGS], uint64_t ids2[FIVVARUL_IDS], float floats2[FIVVARUL_DEVICE_FLOATS], bool flags2[FIVVARUL_DEVICE_FLAGS], uint64_t ids3[FIVVARUL_IDS], float floats3[FIVVARUL_DEVICE_FLOATS], bool flags3[FIVVARUL_DEVICE_FLAGS], double starts[FIVVARUL_MAX_DEVICES], double times[FIVVARUL_MAX_LEN], float positions[FIVVARUL_PARTS], uint32_t codes[FIVVARUL_CODES], float places[FIVVARUL_PLACES], uint8_t presses[FIVVARUL_PRESSES], FivvarulPass given, const uint32_t *feed, size_t feed_len);
FivvarulFactor fivvarul_zoom_factor(float exponent);
FivvarulKernelTouches fivvarul_kernel_fresh(void);
FivvarulKernelRead fivvarul_read_records(FivvarulKernelTouches kernel, uint64_t device, const uint8_t *bytes, size_t bytes_len, uint32_t *feed, size_t feed_len);
FivvarulPosition fivvarul_press_origin(const double seconds[FIVVARUL_SECONDS], const float floats[FIVVARUL_FLOATS], const size_t counts[FIVVARUL_COUNTS], const bool flags[FIVVARUL_FLAGS]);
FivvarulSeconds fivvarul_press_start_time(const double seconds[FIVVARUL_SECONDS], const float floats[FIVVARUL_FLOATS], const size_t counts[FIVVARUL_COUNTS], const bool flags[FIVVARUL_FLAGS]);
bool fivvarul_any_down(const double seconds[FIVVARUL_SECONDS], const float floats[FIVVARUL_FLOATS], const size_t counts[FIVVARUL_COUNTS], const bool flags[FIVVARUL_FLAGS]);
bool fivvarul_button_down(const double seconds[FIVVARUL_SECONDS], const float floats[FIVVARUL_FLOATS], const size_t counts[FIVVARUL_COUNTS], const bool flags[FIVVARUL_FLAGS], uint32_t button);
bool fivvarul_any_pressed(const double seconds[FIVVARUL_SECONDS], const float floats[FIVVARUL_FLOATS], const size_t counts[FIVVARUL_COUNTS], const bool flags[FIVVARUL_FLAGS], const uint32_t codes[FIVVARUL_CODES]);
bool fivvarul_any_released(const double seconds[FIVVARUL_SECONDS], const float floats[FIVVARUL_FLOATS], const size_t counts[FIVVARUL_COUNTS], const bool flags[FIVVARUL_FLAGS], const uint32_t codes[FIVVARUL_CODES]);
bool fivvarul_any_click(const double seconds[FIVVARUL_SECONDS], const float floats[FIVVARUL_FLOATS], const size_t counts[FIVVARUL_COUNTS], const bool flags[FIVVARUL_FLAGS], const uint32_t codes[FIVVARUL_CODES]);
bool fivvarul_button_pressed(const double seconds[FIVVARUL_SECONDS], const float floats[FIVVARUL_FLOATS], const size_t counts[FIVVARUL_COUNTS], const bool flags[FIVVARUL_FLAGS], const uint32_t codes[FIVVARUL_CODES], uint32_t button);
bool fivvarul_button_released(const double seconds[FIVVARUL_SECONDS], const float floats[FIVVARUL_FLOATS], const size_t counts[FIVVARUL_COUNTS], const bool flags[FIVVARUL_FLAGS], const uint32_t codes[FIVVARUL_CODES], uint32_t button);
bool fivvarul_button_clicked(const double seconds[FIVVARUL_SECONDS], const float floats[FIVVARUL_FLOATS], const size_t counts[FIVVARUL_COUNTS], const bool flags[FIVVARUL_FLAGS], const uint32_t codes[FIVVARUL_CODES], uint32_t button);
bool fivvarul_button_double_clicked(const double seconds[FIVVARUL_SECONDS], const float floats[FIVVARUL_FLOATS], const size_t counts[FIVVARUL_COUNTS], const bool flags[FIVVARUL_FLAGS], const uint32_t codes[FIVVARUL_CODES], uint32_t button);
bool fivvarul_button_triple_clicked(const double seconds[FIVVARUL_SECONDS], const float floats[FIVVARUL_FLOATS], const size_t counts[FIVVARUL_COUNTS], const bool flags[FIVVARUL_FLAGS], const uint32_t codes[FIVVARUL_CODES], uint32_t button);
float fivvarul_time_since_last_click(const double seconds[FIVVARUL_SECONDS], const float floats[FIVVARUL_FLOATS], const size_t counts[FIVVARUL_COUNTS], const bool flags[FIVVARUL_FLAGS]);
bool fivvarul_could_any_button_be_click(const double seconds[FIVVARUL_SECONDS], const float floats[FIVVARUL_FLOATS], const size_t counts[FIVVARUL_COUNTS], const bool flags[FIVVARUL_FLAGS], const uint32_t codes[FIVVARUL_CODES]);
bool fivvarul_is_decidedly_dragging(const double seconds[FIVVARUL_SECONDS], const float floats[FIVVARUL_FLOATS], const size_t counts[FIVVARUL_COUNTS], const bool flags[FIVVARUL_FLAGS], const uint32_t codes[FIVVARUL_CODES]);
bool fivvarul_is_long_press(const double seconds[FIVVARUL_SECONDS], const float floats[FIVVARUL_FLOATS], const size_t counts[FIVVARUL_COUNTS], const bool flags[FIVVARUL_FLAGS]);
double fivvarul_time(const double seconds[FIVVARUL_SECONDS], const float floats[FIVVARUL_FLOATS]);
float fivvarul_unstable_dt(const double seconds[FIVVARUL_SECONDS], const float floats[FIVVARUL_FLOATS]);
float fivvarul_predicted_dt(const double seconds[FIVVARUL_SECONDS], const float floats[FIVVARUL_FLOATS]);
float fivvarul_stable_dt(const double seconds[FIVVARUL_SECONDS], const float floats[FIVVARUL_FLOATS]);
bool fivvarul_focused(const double seconds[FIVVARUL_SECONDS], const float floats[FIVVARUL_FLOATS], const bool flags[FIVVARUL_FLAGS]);
FivvarulRect fivvarul_viewport_rect(const double seconds[FIVVARUL_SECONDS], const float floats[FIVVARUL_FLOATS], const bool flags[FIVVARUL_FLAGS]);
float fivvarul_pixels_per_point(const double seconds[FIVVARUL_SECONDS], const float floats[FIVVARUL_FLOATS], const bool flags[FIVVARUL_FLAGS]);
float fivvarul_physical_pixel_size(const double seconds[FIVVARUL_SECONDS], const float floats[FIVVARUL_FLOATS], const bool flags[FIVVARUL_FLAGS]);
float fivvarul_aim_radius(const double seconds[FIVVARUL_SECONDS], const float floats[FIVVARUL_FLOATS], const bool flags[FIVVARUL_FLAGS]);
FivvarulId fivvarul_dragged(const uint64_t held_ids[FIVVARUL_HELD], const bool held_flags[FIVVARUL_HELD]);
FivvarulId fivvarul_potential_click_id(const uint64_t held_ids[FIVVARUL_HELD], const bool held_flags[FIVVARUL_HELD]);
FivvarulId fivvarul_potential_drag_id(const uint64_t held_ids[FIVVARUL_HELD], const bool held_flags[FIVVARUL_HELD]);
uint32_t fivvarul_tally(const uint32_t tally[1]);
size_t fivvarul_pointer_event_count(const double seconds[FIVVARUL_SECONDS], const float floats[FIVVARUL_FLOATS], const size_t counts[FIVVARUL_COUNTS], const bool flags[FIVVARUL_FLAGS]);
FivvarulPointerEvent fivvarul_pointer_event(const double seconds[FIVVARUL_SECONDS], const float floats[FIVVARUL_FLOATS], const size_t counts[FIVVARUL_COUNTS], const bool flags[FIVVARUL_FLAGS], const uint32_t codes[FIVVARUL_CODES], const float places[FIVVARUL_PLACES], size_t i);
bool fivvarul_key_down(const bool flags[FIVVARUL_FLAGS], const uint64_t keys_down[FIVVARUL_KEYS], uint32_t key);
bool fivvarul_key_pressed(const uint8_t presses[FIVVARUL_PRESSES], uint32_t key);
uint8_t fivvarul_num_presses(const uint8_t presses[FIVVARUL_PRESSES], uint32_t key);
bool fivvarul_feed_was_empty(const bool flags[FIVVARUL_FLAGS], const uint64_t keys_down[FIVVARUL_KEYS]);
uint32_t fivvarul_modifiers(const bool flags[FIVVARUL_FLAGS], const uint64_t keys_down[FIVVARUL_KEYS]);
FivvarulVector fivvarul_delta(const float floats[FIVVARUL_FLOATS], const size_t counts[FIVVARUL_COUNTS], const bool flags[FIVVARUL_FLAGS]);
FivvarulMaybeVector fivvarul_motion(const float floats[FIVVARUL_FLOATS], const size_t counts[FIVVARUL_COUNTS], const bool flags[FIVVARUL_FLAGS]);
FivvarulVector fivvarul_velocity(const float floats[FIVVARUL_FLOATS], const size_t counts[FIVVARUL_COUNTS], const bool flags[FIVVARUL_FLAGS]);
FivvarulVector fivvarul_direction(const float floats[FIVVARUL_FLOATS], const size_t counts[FIVVARUL_COUNTS], const bool flags[FIVVARUL_FLAGS]);
FivvarulPosition fivvarul_latest_pos(const float floats[FIVVARUL_FLOATS], const size_t counts[FIVVARUL_COUNTS], const bool flags[FIVVARUL_FLAGS]);
FivvarulPosition fivvarul_hover_pos(const float floats[FIVVARUL_FLOATS], const size_t counts[FIVVARUL_COUNTS], const bool flags[FIVVARUL_FLAGS]);
FivvarulPosition fivvarul_interact_pos(const float floats[FIVVARUL_FLOATS], const size_t counts[FIVVARUL_COUNTS], const bool flags[FIVVARUL_FLAGS]);
bool fivvarul_has_pointer(const float floats[FIVVARUL_FLOATS], const size_t counts[FIVVARUL_COUNTS], const bool flags[FIVVARUL_FLAGS]);
bool fivvarul_is_still(const float floats[FIVVARUL_FLOATS], const size_t counts[FIVVARUL_COUNTS], const bool flags[FIVVARUL_FLAGS]);
bool fivvarul_is_moving(const float floats[FIVVARUL_FLOATS], const size_t counts[FIVVARUL_COUNTS], const bool flags[FIVVARUL_FLAGS]);
FivvarulNumber fivvarul_time_since_last_movement(const double seconds[FIVVARUL_SECONDS], const float floats[FIVVARUL_FLOATS], const size_t counts[FIVVARUL_COUNTS], const bool flags[FIVVARUL_FLAGS]);
FivvarulMaybeVector fivvarul_total_drag_delta(const double seconds[FIVVARUL_SECONDS], const float floats[FIVVARUL_FLOATS], const size_t counts[FIVVARUL_COUNTS], const bool flags[FIVVARUL_FLAGS]);
FivvarulSeconds fivvarul_wants_repaint_after(const double seconds[FIVVARUL_SECONDS], const float floats[FIVVARUL_FLOATS], const size_t counts[FIVVARUL_COUNTS], const bool flags[FIVVARUL_FLAGS], const uint64_t keys_down[FIVVARUL_KEYS], const uint64_t ids0[FIVVARUL_IDS], const float floats0[FIVVARUL_DEVICE_FLOATS], const bool flags0[FIVVARUL_DEVICE_FLAGS], const uint64_t ids1[FIVVARUL_IDS], const float floats1[FIVVARUL_DEVICE_FLOATS], const bool flags1[FIVVARUL_DEVICE_FLAGS], const uint64_t ids2[FIVVARUL_IDS], const float floats2[FIVVARUL_DEVICE_FLOATS], const bool flags2[FIVVARUL_DEVICE_FLAGS], const uint64_t ids3[FIVVARUL_IDS], const float floats3[FIVVARUL_DEVICE_FLOATS], const bool flags3[FIVVARUL_DEVICE_FLAGS], const double starts[FIVVARUL_MAX_DEVICES], const uint32_t codes[FIVVARUL_CODES]);
FivvarulVector fivvarul_smooth_scroll_delta(const float floats[FIVVARUL_FLOATS]);
bool fivvarul_is_scrolling(const double seconds[FIVVARUL_SECONDS], const float floats[FIVVARUL_FLOATS], const bool flags[FIVVARUL_FLAGS]);
FivvarulSource fivvarul_scroll_source(const double seconds[FIVVARUL_SECONDS], const float floats[FIVVARUL_FLOATS], const bool flags[FIVVARUL_FLAGS]);
float fivvarul_time_since_last_scroll(const double seconds[FIVVARUL_SECONDS], const float floats[FIVVARUL_FLOATS], const bool flags[FIVVARUL_FLAGS]);
bool fivvarul_any_touches(const size_t counts[FIVVARUL_COUNTS], const uint64_t ids0[FIVVARUL_IDS], const float floats0[FIVVARUL_DEVICE_FLOATS], const bool flags0[FIVVARUL_DEVICE_FLAGS], const uint64_t ids1[FIVVARUL_IDS], const float floats1[FIVVARUL_DEVICE_FLOATS], const bool flags1[FIVVARUL_DEVICE_FLAGS], const uint64_t ids2[FIVVARUL_IDS], const float floats2[FIVVARUL_DEVICE_FLOATS], const bool flags2[FIVVARUL_DEVICE_FLAGS], const uint64_t ids3[FIVVARUL_IDS], const float floats3[FIVVARUL_DEVICE_FLOATS], const bool flags3[FIVVARUL_DEVICE_FLAGS], const double starts[FIVVARUL_MAX_DEVICES]);
bool fivvarul_has_touch_screen(const size_t counts[FIVVARUL_COUNTS], const uint64_t ids0[FIVVARUL_IDS], const float floats0[FIVVARUL_DEVICE_FLOATS], const bool flags0[FIVVARUL_DEVICE_FLAGS], const uint64_t ids1[FIVVARUL_IDS], const float floats1[FIVVARUL_DEVICE_FLOATS], const bool flags1[FIVVARUL_DEVICE_FLAGS], const uint64_t ids2[FIVVARUL_IDS], const float floats2[FIVVARUL_DEVICE_FLOATS], const bool flags2[FIVVARUL_DEVICE_FLAGS], const uint64_t ids3[FIVVARUL_IDS], const float floats3[FIVVARUL_DEVICE_FLOATS], const bool flags3[FIVVARUL_DEVICE_FLAGS], const double starts[FIVVARUL_MAX_DEVICES]);
FivvarulGesture fivvarul_multi_touch(const size_t counts[FIVVARUL_COUNTS], const uint64_t ids0[FIVVARUL_IDS], const float floats0[FIVVARUL_DEVICE_FLOATS], const bool flags0[FIVVARUL_DEVICE_FLAGS], const uint64_t ids1[FIVVARUL_IDS], const float floats1[FIVVARUL_DEVICE_FLOATS], const bool flags1[FIVVARUL_DEVICE_FLAGS], const uint64_t ids2[FIVVARUL_IDS], const float floats2[FIVVARUL_DEVICE_FLOATS], const bool flags2[FIVVARUL_DEVICE_FLAGS], const uint64_t ids3[FIVVARUL_IDS], const float floats3[FIVVARUL_DEVICE_FLOATS], const bool flags3[FIVVARUL_DEVICE_FLAGS], const double starts[FIVVARUL_MAX_DEVICES]);
FivvarulGesture fivvarul_info(const size_t counts[FIVVARUL_COUNTS], const uint64_t ids0[FIVVARUL_IDS], const float floats0[FIVVARUL_DEVICE_FLOATS], const bool flags0[FIVVARUL_DEVICE_FLAGS], const uint64_t ids1[FIVVARUL_IDS], const float floats1[FIVVARUL_DEVICE_FLOATS], const bool flags1[FIVVARUL_DEVICE_FLAGS], const uint64_t ids2[FIVVARUL_IDS], const float floats2[FIVVARUL_DEVICE_FLOATS], const bool flags2[FIVVARUL_DEVICE_FLAGS], const uint64_t ids3[FIVVARUL_IDS], const float floats3[FIVVARUL_DEVICE_FLOATS], const bool flags3[FIVVARUL_DEVICE_FLAGS], const double starts[FIVVARUL_MAX_DEVICES], uint64_t device_id);
bool fivvarul_any_touches_of(const size_t counts[FIVVARUL_COUNTS], const uint64_t ids0[FIVVARUL_IDS], const float floats0[FIVVARUL_DEVICE_FLOATS], const bool flags0[FIVVARUL_DEVICE_FLAGS], const uint64_t ids1[FIVVARUL_IDS], const float floats1[FIVVARUL_DEVICE_FLOATS], const bool flags1[FIVVARUL_DEVICE_FLAGS], const uint64_t ids2[FIVVARUL_IDS], const float floats2[FIVVARUL_DEVICE_FLOATS], const bool flags2[FIVVARUL_DEVICE_FLAGS], const uint64_t ids3[FIVVARUL_IDS], const float floats3[FIVVARUL_DEVICE_FLOATS], const bool flags3[FIVVARUL_DEVICE_FLAGS], const double starts[FIVVARUL_MAX_DEVICES], uint64_t device_id);
bool fivvarul_is_long_touch(const double seconds[FIVVARUL_SECONDS], const float floats[FIVVARUL_FLOATS], const size_t counts[FIVVARUL_COUNTS], const bool flags[FIVVARUL_FLAGS], const uint64_t ids0[FIVVARUL_IDS], const float floats0[FIVVARUL_DEVICE_FLOATS], const bool flags0[FIVVARUL_DEVICE_FLAGS], const uint64_t ids1[FIVVARUL_IDS], const float floats1[FIVVARUL_DEVICE_FLOATS], const bool flags1[FIVVARUL_DEVICE_FLAGS], const uint64_t ids2[FIVVARUL_IDS], const float floats2[FIVVARUL_DEVICE_FLOATS], const bool flags2[FIVVARUL_DEVICE_FLAGS], const uint64_t ids3[FIVVARUL_IDS], const float floats3[FIVVARUL_DEVICE_FLOATS], const bool flags3[FIVVARUL_DEVICE_FLAGS], const double starts[FIVVARUL_MAX_DEVICES]);
FivvarulSet fivvarul_empty(void);
bool fivvarul_contains(size_t widgets, size_t layers, const uint64_t words[FIVVARUL_WORDS], const uint32_t numbers[FIVVARUL_NUMBERS], uint64_t id);
FivvarulWidget fivvarul_get(size_t widgets, size_t layers, const uint64_t words[FIVVARUL_WORDS], const uint32_t numbers[FIVVARUL_NUMBERS], const float edges[FIVVARUL_EDGES], uint64_t id);
FivvarulOrder fivvarul_order(size_t widgets, size_t layers, const uint64_t words[FIVVARUL_WORDS], const uint32_t numbers[FIVVARUL_NUMBERS], const float edges[FIVVARUL_EDGES], uint64_t id);
size_t fivvarul_layer_count(size_t widgets, size_t layers, const uint64_t words[FIVVARUL_WORDS], const uint32_t numbers[FIVVARUL_NUMBERS], FivvarulLayerId layer);
FivvarulLayer fivvarul_layer_id(size_t widgets, size_t layers, const uint64_t words[FIVVARUL_WORDS], const uint32_t numbers[FIVVARUL_NUMBERS], size_t i);
FivvarulZoom fivvarul_zoom_delta(const float floats[FIVVARUL_FLOATS], const size_t counts[FIVVARUL_COUNTS], const uint64_t ids0[FIVVARUL_IDS], const float floats0[FIVVARUL_DEVICE_FLOATS], const bool flags0[FIVVARUL_DEVICE_FLAGS], const uint64_t ids1[FIVVARUL_IDS], const float floats1[FIVVARUL_DEVICE_FLOATS], const bool flags1[FIVVARUL_DEVICE_FLAGS], const uint64_t ids2[FIVVARUL_IDS], const float floats2[FIVVARUL_DEVICE_FLOATS], const bool flags2[FIVVARUL_DEVICE_FLAGS], const uint64_t ids3[FIVVARUL_IDS], const float floats3[FIVVARUL_DEVICE_FLOATS], const bool flags3[FIVVARUL_DEVICE_FLAGS], const double starts[FIVVARUL_MAX_DEVICES]);
FivvarulZoom2d fivvarul_zoom_delta_2d(const double seconds[FIVVARUL_SECONDS], const float floats[FIVVARUL_FLOATS], const size_t counts[FIVVARUL_COUNTS], const bool flags[FIVVARUL_FLAGS], const uint64_t keys_down[FIVVARUL_KEYS], const uint64_t ids0[FIVVARUL_IDS], const float floats0[FIVVARUL_DEVICE_FLOATS], const bool flags0[FIVVARUL_DEVICE_FLAGS], const uint64_t ids1[FIVVARUL_IDS], const float floats1[FIVVARUL_DEVICE_FLOATS], const bool flags1[FIVVARUL_DEVICE_FLAGS], const uint64_t ids2[FIVVARUL_IDS], const float floats2[FIVVARUL_DEVICE_FLOATS], const bool flags2[FIVVARUL_DEVICE_FLAGS], const uint64_t ids3[FIVVARUL_IDS], const float floats3[FIVVARUL_DEVICE_FLOATS], const bool flags3[FIVVARUL_DEVICE_FLAGS], const double starts[FIVVARUL_MAX_DEVICES]);
FivvarulRotation fivvarul_rotation_delta(const float floats[FIVVARUL_FLOATS], const size_t counts[FIVVARUL_COUNTS], const uint64_t ids0[FIVVARUL_IDS], const float floats0[FIVVARUL_DEVICE_FLOATS], const bool flags0[FIVVARUL_DEVICE_FLAGS], const uint64_t ids1[FIVVARUL_IDS], const float floats1[FIVVARUL_DEVICE_FLOATS], const bool flags1[FIVVARUL_DEVICE_FLAGS], const uint64_t ids2[FIVVARUL_IDS], const float floats2[FIVVARUL_DEVICE_FLOATS], const bool flags2[FIVVARUL_DEVICE_FLAGS], const uint64_t ids3[FIVVARUL_IDS], const float floats3[FIVVARUL_DEVICE_FLOATS], const bool flags3[FIVVARUL_DEVICE_FLAGS], const double starts[FIVVARUL_MAX_DEVICES]);
FivvarulVector fivvarul_translation_delta(const float floats[FIVVARUL_FLOATS], const size_t counts[FIVVARUL_COUNTS], const uint64_t ids0[FIVVARUL_IDS], const float floats0[FIVVARUL_DEVICE_FLOATS], const bool flags0[FIVVARUL_DEVICE_FLAGS], const uint64_t ids1[FIVVARUL_IDS], const float floats1[FIVVARUL_DEVICE_FLOATS], const bool flags1[FIVVARUL_DEVICE_FLAGS], const uint64_t ids2[FIVVARUL_IDS], const float floats2[FIVVARUL_DEVICE_FLOATS], const bool flags2[FIVVARUL_DEVICE_FLAGS], const uint64_t ids3[FIVVARUL_IDS], const float floats3[FIVVARUL_DEVICE_FLOATS], const bool flags3[FIVVARUL_DEVICE_FLAGS], const double starts[FIVVARUL_MAX_DEVICES]);

/* ---- the same, of one record */

typedef struct {
    double seconds[FIVVARUL_SECONDS];
    size_t counts[FIVVARUL_COUNTS];
    uint64_t keys_down[FIVVARUL_KEYS];
    uint64_t held_ids[FIVVARUL_HELD];
    uint64_t words[FIVVARUL_WORDS];
    uint64_t ids0[FIVVARUL_IDS];
    uint64_t ids1[FIVVARUL_IDS];
    uint64_t ids2[FIVVARUL_IDS];
    uint64_t ids3[FIVVARUL_IDS];
    double starts[FIVVARUL_MAX_DEVICES];
    double times[FIVVARUL_MAX_LEN];
    float floats[FIVVARUL_FLOATS];
    uint32_t tally[1];
    uint32_t numbers[FIVVARUL_NUMBERS];
    float edges[FIVVARUL_EDGES];
    float floats0[FIVVARUL_DEVICE_FLOATS];
    float floats1[FIVVARUL_DEVICE_FLOATS];
    float floats2[FIVVARUL_DEVICE_FLOATS];
    float floats3[FIVVARUL_DEVICE_FLOATS];
    uint32_t codes[FIVVARUL_CODES];
    float positions[FIVVARUL_PARTS];
    float places[FIVVARUL_PLACES];
    bool flags[FIVVARUL_FLAGS];
    uint8_t presses[FIVVARUL_PRESSES];
    bool held_flags[FIVVARUL_HELD];
    bool flags0[FIVVARUL_DEVICE_FLAGS];
    bool flags1[FIVVARUL_DEVICE_FLAGS];
    bool flags2[FIVVARUL_DEVICE_FLAGS];
    bool flags3[FIVVARUL_DEVICE_FLAGS];
} FivvarulPanel;

/* The memory of a fresh panel: egui's initial state, no device, no drag, tally 0. The devices' arrays and the other lent arrays may hold anything. */
static inline void fivvarul_panel_fresh(FivvarulPanel *p) {
    fivvarul_fresh(p->seconds, p->floats, p->counts, p->flags, p->keys_down, p->presses, p->held_ids, p->held_flags, p->tally);
}

/* Inserts a widget into its own layer, whose widgets are lent in `layer`. Refused, every place is as before; taken, the answer has the set after it. */
static inline FivvarulInsertion fivvarul_panel_insert(FivvarulPanel *p, FivvarulSet set, FivvarulWidgetRect *layer, size_t layer_len, FivvarulWidgetRect widget, bool move_to_top) {
    return fivvarul_insert(set, p->words, p->numbers, p->edges, layer, layer_len, widget, move_to_top);
}

/* Refused, with every place as before; or taken. The hits are two words an entry, id and sense; `top` gets the hovered ids, `all` those that contain the pointer, both ascending; 66 places each. The widgets are those of the set of so many widgets and layers. */
static inline FivvarulSnapshot fivvarul_panel_interact(FivvarulPanel *p, size_t widgets, size_t layers, const uint64_t *close, size_t close_len, const uint64_t *within, size_t within_len, bool click_given, uint64_t click_id, uint64_t click_sense, bool drag_given, uint64_t drag_id, uint64_t drag_sense, uint64_t *top, size_t top_len, uint64_t *all, size_t all_len) {
    return fivvarul_interact(p->seconds, p->floats, p->counts, p->flags, p->ids0, p->floats0, p->flags0, p->ids1, p->floats1, p->flags1, p->ids2, p->floats2, p->flags2, p->ids3, p->floats3, p->flags3, p->starts, p->codes, p->presses, p->held_ids, p->held_flags, p->tally, widgets, layers, p->words, p->numbers, close, close_len, within, within_len, click_given, click_id, click_sense, drag_given, drag_id, drag_sense, top, top_len, all, all_len);
}

/* Refused, with every place as before; or taken. */
static inline FivvarulRefusal fivvarul_panel_pass(FivvarulPanel *p, FivvarulPass given, const uint32_t *feed, size_t feed_len) {
    return fivvarul_pass(p->seconds, p->floats, p->counts, p->flags, p->keys_down, p->ids0, p->floats0, p->flags0, p->ids1, p->floats1, p->flags1, p->ids2, p->floats2, p->flags2, p->ids3, p->floats3, p->flags3, p->starts, p->times, p->positions, p->codes, p->places, p->presses, given, feed, feed_len);
}

static inline FivvarulPosition fivvarul_panel_press_origin(const FivvarulPanel *p) {
    return fivvarul_press_origin(p->seconds, p->floats, p->counts, p->flags);
}

static inline FivvarulSeconds fivvarul_panel_press_start_time(const FivvarulPanel *p) {
    return fivvarul_press_start_time(p->seconds, p->floats, p->counts, p->flags);
}

static inline bool fivvarul_panel_any_down(const FivvarulPanel *p) {
    return fivvarul_any_down(p->seconds, p->floats, p->counts, p->flags);
}

static inline bool fivvarul_panel_button_down(const FivvarulPanel *p, uint32_t button) {
    return fivvarul_button_down(p->seconds, p->floats, p->counts, p->flags, button);
}

static inline bool fivvarul_panel_any_pressed(const FivvarulPanel *p) {
    return fivvarul_any_pressed(p->seconds, p->floats, p->counts, p->flags, p->codes);
}

static inline bool fivvarul_panel_any_released(const FivvarulPanel *p) {
    return fivvarul_any_released(p->seconds, p->floats, p->counts, p->flags, p->codes);
}

static inline bool fivvarul_panel_any_click(const FivvarulPanel *p) {
    return fivvarul_any_click(p->seconds, p->floats, p->counts, p->flags, p->codes);
}

static inline bool fivvarul_panel_button_pressed(const FivvarulPanel *p, uint32_t button) {
    return fivvarul_button_pressed(p->seconds, p->floats, p->counts, p->flags, p->codes, button);
}

static inline bool fivvarul_panel_button_released(const FivvarulPanel *p, uint32_t button) {
    return fivvarul_button_released(p->seconds, p->floats, p->counts, p->flags, p->codes, button);
}

static inline bool fivvarul_panel_button_clicked(const FivvarulPanel *p, uint32_t button) {
    return fivvarul_button_clicked(p->seconds, p->floats, p->counts, p->flags, p->codes, button);
}

static inline bool fivvarul_panel_button_double_clicked(const FivvarulPanel *p, uint32_t button) {
    return fivvarul_button_double_clicked(p->seconds, p->floats, p->counts, p->flags, p->codes, button);
}

static inline bool fivvarul_panel_button_triple_clicked(const FivvarulPanel *p, uint32_t button) {
    return fivvarul_button_triple_clicked(p->seconds, p->floats, p->counts, p->flags, p->codes, button);
}

static inline float fivvarul_panel_time_since_last_click(const FivvarulPanel *p) {
    return fivvarul_time_since_last_click(p->seconds, p->floats, p->counts, p->flags);
}

static inline bool fivvarul_panel_could_any_button_be_click(const FivvarulPanel *p) {
    return fivvarul_could_any_button_be_click(p->seconds, p->floats, p->counts, p->flags, p->codes);
}

static inline bool fivvarul_panel_is_decidedly_dragging(const FivvarulPanel *p) {
    return fivvarul_is_decidedly_dragging(p->seconds, p->floats, p->counts, p->flags, p->codes);
}

static inline bool fivvarul_panel_is_long_press(const FivvarulPanel *p) {
    return fivvarul_is_long_press(p->seconds, p->floats, p->counts, p->flags);
}

static inline double fivvarul_panel_time(const FivvarulPanel *p) {
    return fivvarul_time(p->seconds, p->floats);
}

static inline float fivvarul_panel_unstable_dt(const FivvarulPanel *p) {
    return fivvarul_unstable_dt(p->seconds, p->floats);
}

static inline float fivvarul_panel_predicted_dt(const FivvarulPanel *p) {
    return fivvarul_predicted_dt(p->seconds, p->floats);
}

static inline float fivvarul_panel_stable_dt(const FivvarulPanel *p) {
    return fivvarul_stable_dt(p->seconds, p->floats);
}

static inline bool fivvarul_panel_focused(const FivvarulPanel *p) {
    return fivvarul_focused(p->seconds, p->floats, p->flags);
}

static inline FivvarulRect fivvarul_panel_viewport_rect(const FivvarulPanel *p) {
    return fivvarul_viewport_rect(p->seconds, p->floats, p->flags);
}

static inline float fivvarul_panel_pixels_per_point(const FivvarulPanel *p) {
    return fivvarul_pixels_per_point(p->seconds, p->floats, p->flags);
}

static inline float fivvarul_panel_physical_pixel_size(const FivvarulPanel *p) {
    return fivvarul_physical_pixel_size(p->seconds, p->floats, p->flags);
}

static inline float fivvarul_panel_aim_radius(const FivvarulPanel *p) {
    return fivvarul_aim_radius(p->seconds, p->floats, p->flags);
}

static inline FivvarulId fivvarul_panel_dragged(const FivvarulPanel *p) {
    return fivvarul_dragged(p->held_ids, p->held_flags);
}

static inline FivvarulId fivvarul_panel_potential_click_id(const FivvarulPanel *p) {
    return fivvarul_potential_click_id(p->held_ids, p->held_flags);
}

static inline FivvarulId fivvarul_panel_potential_drag_id(const FivvarulPanel *p) {
    return fivvarul_potential_drag_id(p->held_ids, p->held_flags);
}

/* How many drags were started. */
static inline uint32_t fivvarul_panel_tally(const FivvarulPanel *p) {
    return fivvarul_tally(p->tally);
}

/* How many there were. */
static inline size_t fivvarul_panel_pointer_event_count(const FivvarulPanel *p) {
    return fivvarul_pointer_event_count(p->seconds, p->floats, p->counts, p->flags);
}

/* Event `i`, if there were so many. */
static inline FivvarulPointerEvent fivvarul_panel_pointer_event(const FivvarulPanel *p, size_t i) {
    return fivvarul_pointer_event(p->seconds, p->floats, p->counts, p->flags, p->codes, p->places, i);
}

static inline bool fivvarul_panel_key_down(const FivvarulPanel *p, uint32_t key) {
    return fivvarul_key_down(p->flags, p->keys_down, key);
}

static inline bool fivvarul_panel_key_pressed(const FivvarulPanel *p, uint32_t key) {
    return fivvarul_key_pressed(p->presses, key);
}

static inline uint8_t fivvarul_panel_num_presses(const FivvarulPanel *p, uint32_t key) {
    return fivvarul_num_presses(p->presses, key);
}

static inline bool fivvarul_panel_feed_was_empty(const FivvarulPanel *p) {
    return fivvarul_feed_was_empty(p->flags, p->keys_down);
}

/* 01's five bits: alt, ctrl, shift, mac_cmd, command. */
static inline uint32_t fivvarul_panel_modifiers(const FivvarulPanel *p) {
    return fivvarul_modifiers(p->flags, p->keys_down);
}

static inline FivvarulVector fivvarul_panel_delta(const FivvarulPanel *p) {
    return fivvarul_delta(p->floats, p->counts, p->flags);
}

static inline FivvarulMaybeVector fivvarul_panel_motion(const FivvarulPanel *p) {
    return fivvarul_motion(p->floats, p->counts, p->flags);
}

static inline FivvarulVector fivvarul_panel_velocity(const FivvarulPanel *p) {
    return fivvarul_velocity(p->floats, p->counts, p->flags);
}

static inline FivvarulVector fivvarul_panel_direction(const FivvarulPanel *p) {
    return fivvarul_direction(p->floats, p->counts, p->flags);
}

static inline FivvarulPosition fivvarul_panel_latest_pos(const FivvarulPanel *p) {
    return fivvarul_latest_pos(p->floats, p->counts, p->flags);
}

static inline FivvarulPosition fivvarul_panel_hover_pos(const FivvarulPanel *p) {
    return fivvarul_hover_pos(p->floats, p->counts, p->flags);
}

static inline FivvarulPosition fivvarul_panel_interact_pos(const FivvarulPanel *p) {
    return fivvarul_interact_pos(p->floats, p->counts, p->flags);
}

static inline bool fivvarul_panel_has_pointer(const FivvarulPanel *p) {
    return fivvarul_has_pointer(p->floats, p->counts, p->flags);
}

static inline bool fivvarul_panel_is_still(const FivvarulPanel *p) {
    return fivvarul_is_still(p->floats, p->counts, p->flags);
}

static inline bool fivvarul_panel_is_moving(const FivvarulPanel *p) {
    return fivvarul_is_moving(p->floats, p->counts, p->flags);
}

static inline FivvarulNumber fivvarul_panel_time_since_last_movement(const FivvarulPanel *p) {
    return fivvarul_time_since_last_movement(p->seconds, p->floats, p->counts, p->flags);
}

static inline FivvarulMaybeVector fivvarul_panel_total_drag_delta(const FivvarulPanel *p) {
    return fivvarul_total_drag_delta(p->seconds, p->floats, p->counts, p->flags);
}

static inline FivvarulSeconds fivvarul_panel_wants_repaint_after(const FivvarulPanel *p) {
    return fivvarul_wants_repaint_after(p->seconds, p->floats, p->counts, p->flags, p->keys_down, p->ids0, p->floats0, p->flags0, p->ids1, p->floats1, p->flags1, p->ids2, p->floats2, p->flags2, p->ids3, p->floats3, p->flags3, p->starts, p->codes);
}

static inline FivvarulVector fivvarul_panel_smooth_scroll_delta(const FivvarulPanel *p) {
    return fivvarul_smooth_scroll_delta(p->floats);
}

static inline bool fivvarul_panel_is_scrolling(const FivvarulPanel *p) {
    return fivvarul_is_scrolling(p->seconds, p->floats, p->flags);
}

static inline FivvarulSource fivvarul_panel_scroll_source(const FivvarulPanel *p) {
    return fivvarul_scroll_source(p->seconds, p->floats, p->flags);
}

static inline float fivvarul_panel_time_since_last_scroll(const FivvarulPanel *p) {
    return fivvarul_time_since_last_scroll(p->seconds, p->floats, p->flags);
}

static inline bool fivvarul_panel_any_touches(const FivvarulPanel *p) {
    return fivvarul_any_touches(p->counts, p->ids0, p->floats0, p->flags0, p->ids1, p->floats1, p->flags1, p->ids2, p->floats2, p->flags2, p->ids3, p->floats3, p->flags3, p->starts);
}

static inline bool fivvarul_panel_has_touch_screen(const FivvarulPanel *p) {
    return fivvarul_has_touch_screen(p->counts, p->ids0, p->floats0, p->flags0, p->ids1, p->floats1, p->flags1, p->ids2, p->floats2, p->flags2, p->ids3, p->floats3, p->flags3, p->starts);
}

static inline FivvarulGesture fivvarul_panel_multi_touch(const FivvarulPanel *p) {
    return fivvarul_multi_touch(p->counts, p->ids0, p->floats0, p->flags0, p->ids1, p->floats1, p->flags1, p->ids2, p->floats2, p->flags2, p->ids3, p->floats3, p->flags3, p->starts);
}

static inline FivvarulGesture fivvarul_panel_info(const FivvarulPanel *p, uint64_t device_id) {
    return fivvarul_info(p->counts, p->ids0, p->floats0, p->flags0, p->ids1, p->floats1, p->flags1, p->ids2, p->floats2, p->flags2, p->ids3, p->floats3, p->flags3, p->starts, device_id);
}

static inline bool fivvarul_panel_any_touches_of(const FivvarulPanel *p, uint64_t device_id) {
    return fivvarul_any_touches_of(p->counts, p->ids0, p->floats0, p->flags0, p->ids1, p->floats1, p->flags1, p->ids2, p->floats2, p->flags2, p->ids3, p->floats3, p->flags3, p->starts, device_id);
}

static inline bool fivvarul_panel_is_long_touch(const FivvarulPanel *p) {
    return fivvarul_is_long_touch(p->seconds, p->floats, p->counts, p->flags, p->ids0, p->floats0, p->flags0, p->ids1, p->floats1, p->flags1, p->ids2, p->floats2, p->flags2, p->ids3, p->floats3, p->flags3, p->starts);
}

static inline bool fivvarul_panel_contains(const FivvarulPanel *p, size_t widgets, size_t layers, uint64_t id) {
    return fivvarul_contains(widgets, layers, p->words, p->numbers, id);
}

static inline FivvarulWidget fivvarul_panel_get(const FivvarulPanel *p, size_t widgets, size_t layers, uint64_t id) {
    return fivvarul_get(widgets, layers, p->words, p->numbers, p->edges, id);
}

/* In which layer, and in which order in that layer? */
static inline FivvarulOrder fivvarul_panel_order(const FivvarulPanel *p, size_t widgets, size_t layers, uint64_t id) {
    return fivvarul_order(widgets, layers, p->words, p->numbers, p->edges, id);
}

/* How many widgets the set counts in a layer. */
static inline size_t fivvarul_panel_layer_count(const FivvarulPanel *p, size_t widgets, size_t layers, FivvarulLayerId layer) {
    return fivvarul_layer_count(widgets, layers, p->words, p->numbers, layer);
}

/* The layers in the order of their first insertion: the one at i, if there is one. */
static inline FivvarulLayer fivvarul_panel_layer_id(const FivvarulPanel *p, size_t widgets, size_t layers, size_t i) {
    return fivvarul_layer_id(widgets, layers, p->words, p->numbers, i);
}

static inline FivvarulZoom fivvarul_panel_zoom_delta(const FivvarulPanel *p) {
    return fivvarul_zoom_delta(p->floats, p->counts, p->ids0, p->floats0, p->flags0, p->ids1, p->floats1, p->flags1, p->ids2, p->floats2, p->flags2, p->ids3, p->floats3, p->flags3, p->starts);
}

static inline FivvarulZoom2d fivvarul_panel_zoom_delta_2d(const FivvarulPanel *p) {
    return fivvarul_zoom_delta_2d(p->seconds, p->floats, p->counts, p->flags, p->keys_down, p->ids0, p->floats0, p->flags0, p->ids1, p->floats1, p->flags1, p->ids2, p->floats2, p->flags2, p->ids3, p->floats3, p->flags3, p->starts);
}

static inline FivvarulRotation fivvarul_panel_rotation_delta(const FivvarulPanel *p) {
    return fivvarul_rotation_delta(p->floats, p->counts, p->ids0, p->floats0, p->flags0, p->ids1, p->floats1, p->flags1, p->ids2, p->floats2, p->flags2, p->ids3, p->floats3, p->flags3, p->starts);
}

static inline FivvarulVector fivvarul_panel_translation_delta(const FivvarulPanel *p) {
    return fivvarul_translation_delta(p->floats, p->counts, p->ids0, p->floats0, p->flags0, p->ids1, p->floats1, p->flags1, p->ids2, p->floats2, p->flags2, p->ids3, p->floats3, p->flags3, p->starts);
}

#ifdef __cplusplus
}
#endif
#endif
