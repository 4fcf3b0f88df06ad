#include "both.h"

#include "ledger.h"
#include "quick.h"

const struct ledger LEDGERS[3] = {
    {"hand", hand_empty, {hand_sound, hand_slip_sound}, {hand_step, hand_slip_step}, {hand_run, hand_slip_run},
     hand_slip_open, hand_index_build, hand_index_check, hand_index_places, hand_slip_open_indexed, hand_book_to_bytes,
     hand_book_from_bytes, hand_read, hand_read_next, hand_write},
    {"proved", gs_empty, {gs_sound, gs_slip_sound}, {gs_step, gs_slip_step}, {gs_run, gs_slip_run}, gs_slip_open,
     gs_index_build, gs_index_check, gs_index_places, gs_slip_open_indexed, gs_book_to_bytes, gs_book_from_bytes, gs_read,
     gs_read_next, gs_write},
    {"quick", hand_empty, {hand_sound, hand_slip_sound}, {quick_step, quick_slip_step}, {quick_run, quick_slip_run},
     hand_slip_open, quick_index_build, quick_index_check, quick_index_places, quick_slip_open_indexed, hand_book_to_bytes,
     hand_book_from_bytes, hand_read, hand_read_next, hand_write},
};
