#!/usr/bin/env python3
"""Tries the comparison itself: each slip below is made in a copy of egui's files (or of the domain before them),
and the copy answers instead of a program. The runner must find each one, and so must the stored corpora; the check
of two panels must find those after which a clearing pass no longer clears.
usage: slips.py [CALLS] [NAME ..]      CALLS: how many calls the runner may take for each (default 400,000)
Prints a line for each slip: the call that showed it, and in which corpora; ends with 1 if any stays unseen."""
import os
import shutil
import subprocess
import sys
import tempfile

HERE = os.path.dirname(os.path.abspath(__file__))
MOD, WHEEL = ('egui-src/src/input_state/%s.rs' % f for f in ('mod', 'wheel_state'))
# the copy that is built: see build.sh
TOUCH = 'egui-src/wrap/input_state/touch_state.rs'
ACT, RECT = 'egui-src/src/interaction.rs', 'egui-src/src/widget_rect.rs'
EMATH, DOMAIN, PANEL, WORDS, KERNEL = 'src/shim/emath_types.rs', 'src/domain.rs', 'src/panel.rs', 'src/words.rs', 'src/kernel.rs'

# name, file, what stands there, what stands there after the slip
SLIPS = [
    # 01's "Slips to refuse"
    ('gesture starts at the new interact position', MOD,
     '        for touch_state in self.touch_states.values_mut() {\n            touch_state.begin_pass(time, &new, self.pointer.interact_pos);\n        }\n        let pointer = self.pointer.begin_pass(time, &new, options);',
     '        let pointer = self.pointer.begin_pass(time, &new, options);\n        for touch_state in self.touch_states.values_mut() {\n            touch_state.begin_pass(time, &new, pointer.interact_pos);\n        }'),
    ('pointer gone clears the interact position', MOD, '                    self.latest_pos = None;\n                    // When', '                    self.latest_pos = None;\n                    self.interact_pos = None;\n                    // When'),
    ('a vanished widget loses its drag', ACT, '    let mut dragged = prev_snapshot.dragged;', '    let mut dragged = prev_snapshot.dragged.filter(|id| widgets.contains(*id));'),
    ('Point smoothness before the axis swap', WHEEL, 'MouseWheelUnit::Point => delta.length() < 8.0,', 'MouseWheelUnit::Point => before.length() < 8.0,'),
    ('a click is tested after the button is marked up', MOD, '                        let clicked = self.could_any_button_be_click();', '                        self.down[button as usize] = pressed;\n                        let clicked = self.could_any_button_be_click();'),
    # the pointer
    ('click distance itself is too far', MOD, 'press_origin.distance(pos) > self.options.max_click_dist', 'press_origin.distance(pos) >= self.options.max_click_dist'),
    ('second click at the distance counts', MOD, '&& click_dist_sq < self', '&& click_dist_sq <= self'),
    ('double click at the delay', MOD, '(time - self.last_click_time) < self.options', '(time - self.last_click_time) <= self.options'),
    ('triple click at the delay', MOD, '                < self.options.max_double_click_delay;', '                <= self.options.max_double_click_delay;'),
    ('click at the duration is none', MOD, '                && self.time - press_start_time > self.options.max_click_duration', '                && self.time - press_start_time >= self.options.max_click_duration'),
    ('long press of any button', MOD, '            && self.button_down(PointerButton::Primary)\n            && self.press_start_time', '            && self.press_start_time'),
    ('the click before the last is forgotten', MOD, 'self.last_last_click_time = self.last_click_time;', ''),
    ('velocity of two samples', MOD, 'self.pos_history.len() >= 3', 'self.pos_history.len() >= 2'),
    ('velocity at 0.01 s', MOD, 'self.pos_history.duration() > 0.01', 'self.pos_history.duration() >= 0.01'),
    ('a press keeps the history', MOD, '                        self.pos_history.clear();\n                    }\n\n                    if pressed {', '                    }\n\n                    if pressed {'),
    ('history cleared before the velocity', MOD, 'clear_history_after_velocity_calculation = true;', 'self.pos_history.clear();'),
    ('a press keeps "moved too much"', MOD, '                        self.has_moved_too_much_for_a_click = false;', ''),
    ('motion stays', MOD, 'self.motion = Some(Vec2::ZERO);', ''),
    ('a press in the same pass counts as dragging', MOD, '            && !self.any_pressed()\n', ''),
    # the rest of the input state
    ('stable dt the other way', MOD, 'let stable_dt = if requested', 'let stable_dt = if !requested'),
    ('focus lost keeps the keys', MOD, 'keys_down.clear();', ''),
    ('focus lost keeps the modifiers', MOD, '                    modifiers = Modifiers::default();', ''),
    ('the last rotation alone', MOD, 'rotation_radians += *radians;', 'rotation_radians = *radians;'),
    ('any key lifted stays', MOD, 'keys_down.remove(key);', ''),
    ('repaint wait for a dragged pointer', MOD, 'if self.any_touches() && !self.pointer.is_decidedly_dragging() {', 'if self.any_touches() {'),
    # the wheel
    ('a Point delta of 8 is smooth', WHEEL, 'delta.length() < 8.0,', 'delta.length() <= 8.0,'),
    ('a rest of 1 goes at once', WHEEL, '.abs() < 1.0', '.abs() <= 1.0'),
    ('the action ends at its timeout', WHEEL, '&& timeout < time - self.last_wheel_event', '&& timeout <= time - self.last_wheel_event'),
    ('InTouch drops lifted modifiers', WHEEL, 'self.modifiers |= latest_modifiers;', 'self.modifiers = latest_modifiers;'),
    ('a timed out action is not ended before an event', WHEEL, '        if self.is_scroll_action_over(time) {', '        if false {'),
    ('both modifiers swap the axis', WHEEL, 'if is_horizontal && !is_vertical {', 'if is_horizontal {'),
    ('Momentum rests like Trackpad', WHEEL, 'self.source == MouseWheelSource::Trackpad', 'self.source != MouseWheelSource::Wheel'),
    ('End keeps what is unprocessed', WHEEL, 'self.unprocessed_wheel_delta = Default::default();', ''),
    ('Page goes by the width', WHEEL, 'viewport_rect.height() * delta', '(viewport_rect.max.x - viewport_rect.min.x) * delta'),
    # touch
    ('3 to 1 is Horizontal', TOUCH, 'dx > 3.0 * dy', 'dx >= 3.0 * dy'),
    ('1 to 3 is Vertical', TOUCH, 'dy > 3.0 * dx', 'dy >= 3.0 * dx'),
    ('a finger added keeps the averages before', TOUCH, 'state.previous = None;', ''),
    ('one finger is a gesture', TOUCH, 'if num_touches < 2 {', 'if num_touches < 1 {'),
    ('a Move keeps the force', TOUCH, '                            touch.force = force;', ''),
    ('a Cancel keeps the touch', TOUCH, '                    TouchPhase::End | TouchPhase::Cancel => {', '                    TouchPhase::Cancel => {}\n                    TouchPhase::End => {'),
    ('Start of a held id is dropped', TOUCH, 'self.active_touches.insert(id, ActiveTouch { pos, force });', 'self.active_touches.entry(id).or_insert(ActiveTouch { pos, force });'),
    # interaction
    ('Escape keeps the potential drag', ACT, '        dragged = None;\n        interaction.potential_drag_id = None;\n    }\n\n    if input.is_long', '        dragged = None;\n    }\n\n    if input.is_long'),
    ('a long touch keeps the potential drag', ACT, '            interaction.potential_click_id = None;\n            interaction.potential_drag_id = None;\n        }\n    }\n\n    // Note', '            interaction.potential_click_id = None;\n        }\n    }\n\n    // Note'),
    ('a disabled widget is dragged', ACT, '            && widget.enabled\n', ''),
    ('inside without the click hit', ACT, 'pointer_is_inside || hits.click.is_some_and(|hit| hit.id == widget.id);', 'hits.click.is_some_and(|hit| hit.id == widget.id);'),
    ('the click hit without inside', ACT, 'pointer_is_inside || hits.click.is_some_and(|hit| hit.id == widget.id);', 'pointer_is_inside;'),
    ('hover stops at the interactive widget itself', ACT, 'top_interactive_order <= order', 'top_interactive_order < order'),
    ('hover by the lower interactive widget', ACT, 'click_order.max(drag_order)', 'click_order.min(drag_order)'),
    ('a second press takes the potential click', ACT, 'if interaction.potential_click_id.is_none() {', 'if true {'),
    ('a pointer gone keeps the potential ids', ACT, '!input.pointer.any_down() || input.pointer.latest_pos().is_none()', '!input.pointer.any_down()'),
    ('a vanished widget is still clicked', ACT, '        // The widget we were interested in clicking is gone.\n        interaction.potential_click_id = None;', ''),
    ('a drag that is none keeps the id', ACT, '                dragged = None;\n            }\n        }\n    }', '            }\n        }\n    }'),
    # widgets
    ('a known id takes the new sense', RECT, 'existing.sense |= widget_rect.sense;', 'existing.sense = widget_rect.sense;'),
    ('a known id takes the new enabled', RECT, 'existing.enabled |= widget_rect.enabled;', 'existing.enabled = widget_rect.enabled;'),
    ('moved to top: the next keeps its position', RECT, 'for i in shift_start..layer', 'for i in shift_start + 1..layer'),
    # 01 item 1
    ('a sample of the age itself goes', EMATH, '            && self.values[0].0 < now', '            && self.values[0].0 <= now'),
    ('999 samples', EMATH, 'while self.values.len() > self.max_len {', 'while self.values.len() >= self.max_len {'),
    ('the age is the f64 0.1', EMATH, 'now - f64::from(self.max_age)', 'now - 0.1'),
    # from A.3 on: before, nothing goes by it
    ('length in f32', EMATH, '(x * x + y * y).sqrt() as f32', 'self.length_in_f32()'),
    ('length narrowed before the root', EMATH, '(x * x + y * y).sqrt() as f32', '((x * x + y * y) as f32).sqrt()'),
    ('normalized by the reciprocal', EMATH, '{ self / len }', '{ vec2(self.x * (1.0 / len), self.y * (1.0 / len)) }'),
    ('narrowing cuts off', EMATH, '(b.0 - a.0) as f32', '{ let (d, n) = (b.0 - a.0, (b.0 - a.0) as f32); if f64::from(n) > d { f32::from_bits(n.to_bits() - 1) } else { n } }'),
    ('difference of narrowed times', EMATH, '(b.0 - a.0) as f32', 'b.0 as f32 - a.0 as f32'),
    ('an average divides', TOUCH, 'state.avg_distance *= num_touches_recip;', 'state.avg_distance /= num_touches as f32;'),
    ('-0.0 becomes 0.0', EMATH, '(self.values.back()?.1 - self.values.front()?.1) / dt', '(self.values.back()?.1 - self.values.front()?.1) / dt + vec2(0.0, 0.0)'),
    # the domain
    ('65,536 is refused', DOMAIN, 'v.abs() <= 65_536.0', 'v.abs() < 65_536.0'),
    ('the top of a range is refused', DOMAIN, 'v >= 0.0 && v <= top\n}\npub fn zero_to_f64', 'v >= 0.0 && v < top\n}\npub fn zero_to_f64'),
    ('the top of an f64 range is refused', DOMAIN, 'f64) -> bool {\n    v >= 0.0 && v <= top', 'f64) -> bool {\n    v >= 0.0 && v < top'),
    ('-0.0 is refused', DOMAIN, 'v >= 0.0 && v <= top\n}\npub fn zero_to_f64', 'v.is_sign_positive() && v >= 0.0 && v <= top\n}\npub fn zero_to_f64'),
    ('zoom 0 is taken', DOMAIN, '7 => f(0) > 0.0', '7 => f(0) >= 0.0'),
    ('radians 64 are refused', DOMAIN, 'f(0).abs() <= 64.0', 'f(0).abs() < 64.0'),
    ('event 64 is refused', DOMAIN, 'events: 64,', 'events: 63,'),
    ('event 65 is taken', DOMAIN, 'events: 64,', 'events: 65,'),
    ('key 145 is taken', DOMAIN, '(low & 0xFF) <= 144', '(low & 0xFF) <= 145'),
    ('a fifth device is taken', DOMAIN, 'MAX_DEVICES: usize = 4', 'MAX_DEVICES: usize = 5'),
    ('a tenth touch is refused', DOMAIN, 'touches: 10,', 'touches: 9,'),
    ('an eleventh touch is taken', DOMAIN, 'touches: 10,', 'touches: 11,'),
    ('a freed place is not found', DOMAIN, '                    touches.remove(p);', ''),
    ('widget 1,024 is refused', DOMAIN, 'MAX_WIDGETS: usize = 1024', 'MAX_WIDGETS: usize = 1023'),
    ('layer 33 is taken', DOMAIN, 'MAX_LAYERS: usize = 32', 'MAX_LAYERS: usize = 33'),
    ('hit 65 is taken', DOMAIN, 'MAX_HITS: usize = 64', 'MAX_HITS: usize = 65'),
    ('65 id places do', DOMAIN, 'MIN_ID_PLACES: u32 = 66', 'MIN_ID_PLACES: u32 = 65'),
    ('a slice too short by one does', PANEL, 'if (places as usize) < after {', 'if (places as usize) + 1 < after {'),
    ('a parent of 0 is taken', PANEL, '(Some(id), Some(_parent), Some(layer)) =\n            (Id::from_u64(w.id), Id::from_u64(w.parent), ', '(Some(id), Some(_parent), Some(layer)) =\n            (Id::from_u64(w.id), Id::from_u64(1), '),
    ('a time before is taken', PANEL, 'p.time.is_some_and(|t| t < self.input.time)', 'p.time.is_some_and(|t| t + 1e-9 < self.input.time)'),
    ('a drag start at the end of the tally is taken', PANEL, 'if tally == u32::MAX {\n                    return refuse(10);\n                }\n                tally += 1;', 'tally = tally.wrapping_add(1);'),
    ('a refused start changes the potential ids', PANEL, '                    return refuse(10);', '                    self.interaction = interaction;\n                    return refuse(10);'),
    # 02
    ('a call that is not landed is answered', WORDS, '_ if !exists(call, level) => Err(MALFORMED),', '_ if !exists(call, LAST_LEVEL) => Err(MALFORMED),'),
    # A.1
    ('kernel: Start before End', KERNEL,
     '    if before.id != -1 {\n        e.extend(touch(2, device, before.id, now));\n    }\n    if now.id != -1 {\n        e.extend(touch(0, device, now.id, now));\n    }',
     '    if now.id != -1 {\n        e.extend(touch(0, device, now.id, now));\n    }\n    if before.id != -1 {\n        e.extend(touch(2, device, before.id, now));\n    }'),
    ('kernel: End at the old position', KERNEL, 'touch(2, device, before.id, now)', 'touch(2, device, before.id, before)'),
    ('kernel: y from x', KERNEL, '(at.x as f32, at.y as f32)', '(at.x as f32, at.x as f32)'),
    ('kernel: a skipped slot is refused', KERNEL, '                k.skipping = !report_end;', '                if kind == 3 && code == 0x2F && value >= slots as i32 {\n                    return refuse(12);\n                }\n                k.skipping = !report_end;'),
    ('kernel: a skipped slot is chosen', KERNEL, '                k.skipping = !report_end;', '                if kind == 3 && code == 0x2F && value >= 0 && value < slots as i32 {\n                    k.chosen = value as usize;\n                }\n                k.skipping = !report_end;'),
    ('kernel: a skipped report end is acted on', KERNEL, '                k.skipping = !report_end;\n                continue;', '                k.skipping = !report_end;\n                if !report_end {\n                    continue;\n                }'),
    ('kernel: dropped is forgotten at the end of a call', KERNEL, '        *self = k;', '        k.skipping = false;\n        *self = k;'),
    ('kernel: a dropped in a skipped part is not answered', KERNEL, 'out.dropped |= dropped;', 'out.dropped |= dropped && !k.skipping;'),
    ('kernel: a report end does not settle', KERNEL, '                k.acted = k.now;', ''),
    ('kernel: 65,536 is refused', KERNEL, 'value <= 65_536;', 'value < 65_536;'),
    ('kernel: slot 10 is taken', KERNEL, '0x2F if value < 0 || value >= slots as i32', '0x2F if value < 0 || value > slots as i32'),
    ('kernel: a refused call keeps its slots', KERNEL, '=> return refuse(12),', '=> {\n                        *self = k;\n                        return refuse(12);\n                    }'),
    ('kernel: a full buffer is refused', KERNEL, 'out.feed.len() + events.len() > places', '!events.is_empty() && out.feed.len() + events.len() >= places'),
    ('kernel: a lifted finger loses its position', KERNEL, '0x39 => k.now[k.chosen].id = value,', '0x39 if value == -1 => k.now[k.chosen] = EMPTY,\n                    0x39 => k.now[k.chosen].id = value,'),
]
# slips after which a clearing pass no longer makes two panels alike
UNCLEARED = ['focus lost keeps the keys', 'focus lost keeps the modifiers', 'End keeps what is unprocessed', 'a press keeps "moved too much"', 'motion stays']
# so that the fourth slip can be said in one place
BEFORE = ('                let is_horizontal = self\n                    .modifiers', '                let before = delta;\n                let is_horizontal = self\n                    .modifiers')


def slipped(folder, file, old, new):
    path = os.path.join(folder, file)
    text = open(path).read()
    if text.count(old) != 1:
        sys.exit('%s: occurs %d times: %s' % (file, text.count(old), old))
    text = text.replace(old, new)
    if 'before.length()' in new:
        text = text.replace(*BEFORE)
    os.remove(path)
    open(path, 'w').write(text)


def seen_in(corpora, oracle):
    """The corpora whose checksums the slipped copy doesn't give."""
    seen = []
    for name in sorted(f[:-6] for f in os.listdir(corpora) if f.endswith('.trace')):
        with open(os.path.join(corpora, name + '.trace'), 'rb') as t:
            got = subprocess.run([oracle, '--sums'], stdin=t, capture_output=True).stdout
        want = open(os.path.join(corpora, name + '.sums'), 'rb').read()
        if got != want:
            a, b = got.split(b'\n'), want.split(b'\n')
            k = next((k for k in range(min(len(a), len(b))) if a[k] != b[k]), min(len(a), len(b)))
            seen.append('%s %d' % (name, k))
    return seen


def main():
    calls = sys.argv[1] if len(sys.argv) > 1 else '400000'
    names = sys.argv[2:]
    run, corpora = (os.path.join(HERE, 'target/release', p) for p in ('run', 'corpora'))
    stored = tempfile.mkdtemp()
    subprocess.run([corpora, stored], check=True, stdout=subprocess.DEVNULL)
    work = tempfile.mkdtemp()
    unseen = []
    for name, file, old, new in SLIPS:
        if names and name not in names:
            continue
        copy = os.path.join(work, 'copy')
        shutil.rmtree(copy, ignore_errors=True)
        shutil.copytree(HERE, copy, symlinks=True, ignore=shutil.ignore_patterns('target', 'vectors'))
        slipped(copy, file, old, new)
        built = subprocess.run(['cargo', 'build', '--release', '--offline', '--bin', 'oracle', '--bin', 'clearing'], cwd=copy, capture_output=True, text=True,
                               env=dict(os.environ, CARGO_TARGET_DIR=os.path.join(work, 'target'), CARGO_PROFILE_RELEASE_OPT_LEVEL='0', CARGO_INCREMENTAL='1'))
        if built.returncode != 0:
            sys.exit('%s: %s' % (name, built.stderr[-2000:]))
        oracle = os.path.join(work, 'target/release/oracle')
        r = subprocess.run([run, 'calls=' + calls, 'keep=' + os.path.join(work, 'kept'), oracle], capture_output=True, text=True)
        where = r.stdout.split('\n')[0][:150] if r.returncode == 1 else 'NOT SEEN by the runner'
        seen = seen_in(stored, oracle)
        print('%-48s %s\n%48s corpora: %s' % (name, where, '', ', '.join(seen) or 'NOT SEEN'), flush=True)
        if r.returncode != 1 or not seen:
            unseen.append(name)
        if name in UNCLEARED:
            c = subprocess.run([os.path.join(work, 'target/release/clearing'), 'lists=2000'], capture_output=True, text=True)
            print('%48s two panels: %s' % ('', c.stdout.split('\n')[0] if c.returncode == 1 else 'NOT SEEN'), flush=True)
            if c.returncode != 1:
                unseen.append(name + ', by two panels')
    shutil.rmtree(work)
    shutil.rmtree(stored)
    print('%d slips, %d not seen%s' % (len(names or SLIPS), len(unseen), ': ' + '; '.join(unseen) if unseen else ''))
    sys.exit(1 if unseen else 0)


main()
