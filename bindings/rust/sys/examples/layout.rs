//! Prints the size and the fields' places of each record, and each number, as bindings/c/tests/layout.c does.

use std::mem::{offset_of, size_of};
use zirmegat_sys::*;

macro_rules! record {
    ($type:ident, $($field:ident),*) => {
        println!("{} {}", stringify!($type), size_of::<$type>());
        $(println!("{}.{} {}", stringify!($type), stringify!($field), offset_of!($type, $field));)*
    };
}

macro_rules! number {
    ($name:ident) => {
        println!("{} {}", stringify!($name), $name)
    };
}

fn main() {
    record!(zmg_key, bytes);
    record!(zmg_random, bytes);
    record!(zmg_identity, bytes);
    record!(zmg_name, text);
    record!(zmg_address, bytes);
    record!(
        zmg_settings,
        skill,
        deathmatch,
        no_monsters,
        respawn,
        episode,
        map
    );
    record!(zmg_terms, limit, policy, seconds, players, window, rate, settings, identity, own);
    record!(zmg_host_config, size, terms, key, random, name, keyless);
    record!(
        zmg_join_config,
        size,
        key,
        random,
        host,
        identity,
        name,
        keyless,
        seat,
        players
    );
    record!(zmg_event, kind, player, why, number);
    record!(zmg_command, turn, forward, side, chat, buttons);
    record!(zmg_row, tic, was, should, player, present, commands);
    record!(
        zmg_state,
        stage,
        why,
        number,
        made,
        ran,
        unacknowledged,
        may_leave,
        was,
        should,
        me,
        terms
    );
    record!(
        zmg_line,
        came,
        lost,
        repeated,
        too_old,
        missing_there,
        lead,
        lead_there
    );
    record!(
        zmg_player,
        seat,
        has_address,
        address,
        name,
        standing,
        awaited,
        silent,
        got,
        end,
        line
    );
    record!(
        zmg_start,
        skill,
        episode,
        map,
        deathmatch,
        respawn,
        fast,
        no_monsters
    );
    record!(
        zmg_demo_facts,
        tics,
        cut,
        after,
        version,
        view,
        start,
        present
    );
    record!(zmg_game_number, bytes);
    record!(
        zmg_node_config,
        size,
        limit,
        players,
        me,
        window,
        extra,
        settings,
        secret,
        game
    );
    record!(
        zmg_node_state,
        demo_length,
        phase,
        cause,
        was,
        should,
        player,
        me,
        players,
        made,
        ran,
        can_give,
        knows_settings,
        unacknowledged,
        refused,
        may_leave,
        is_undecided,
        undecided,
        settings
    );
    record!(
        zmg_node_player,
        got,
        end,
        left,
        given_up,
        is_resting,
        wants_second,
        reports,
        line
    );
    record!(zmg_aim, asks, ask, start, flags, count);
    record!(zmg_heard, code, number);
    record!(zmg_received, code, reason, player);
    record!(zmg_given_up, code, reason, player);
    record!(zmg_sent_command, turn, mark, forward, side, chat, buttons);
    record!(zmg_packet, flags, ask, start, player, count, commands);
    number!(ZMG_VERSION);
    number!(ZMG_OK);
    number!(ZMG_ERR_HANDLE);
    number!(ZMG_ERR_SIZE);
    number!(ZMG_ERR_MEMORY);
    number!(ZMG_ERR_ROOM);
    number!(ZMG_ERR_NOT_NOW);
    number!(ZMG_ERR_KEY);
    number!(ZMG_ERR_RANDOM);
    number!(ZMG_ERR_PLAYERS);
    number!(ZMG_ERR_WINDOW);
    number!(ZMG_ERR_RATE);
    number!(ZMG_ERR_LIMIT);
    number!(ZMG_ERR_POLICY);
    number!(ZMG_ERR_SEAT);
    number!(ZMG_ERR_SKILL);
    number!(ZMG_ERR_DEATHMATCH);
    number!(ZMG_ERR_EPISODE);
    number!(ZMG_ERR_MAP);
    number!(ZMG_ERR_TEXT);
    number!(ZMG_ERR_DEMO_SHORT);
    number!(ZMG_ERR_DEMO_VERSION);
    number!(ZMG_ERR_DEMO_PLAYERS);
    number!(ZMG_ERR_DEMO_MARKER);
    number!(ZMG_ERR_TIC);
    number!(ZMG_ERR_ME);
    number!(ZMG_ERR_FULL);
    number!(ZMG_OVER_LEFT);
    number!(ZMG_OVER_FULL);
    number!(ZMG_OVER_INCONSISTENT);
    number!(ZMG_OVER_GIVEN_UP);
    number!(ZMG_OVER_ALONE);
    number!(ZMG_OVER_LOST);
    number!(ZMG_OVER_BEGUN);
    number!(ZMG_OVER_PLAYERS);
    number!(ZMG_OVER_IDENTITY);
    number!(ZMG_OVER_KICKED);
    number!(ZMG_OVER_OTHER_KEY);
    number!(ZMG_OVER_VERSION);
    number!(ZMG_KEY_TEXT_SIZE);
    number!(ZMG_POLICY_WAIT);
    number!(ZMG_POLICY_GIVE_UP);
    number!(ZMG_POLICY_END);
    number!(ZMG_WAIT_NONE);
    number!(ZMG_DATAGRAM_SIZE);
    number!(ZMG_EVENT_NONE);
    number!(ZMG_EVENT_SEATED);
    number!(ZMG_EVENT_UNSEATED);
    number!(ZMG_EVENT_BEGAN);
    number!(ZMG_EVENT_LEFT);
    number!(ZMG_EVENT_GIVEN_UP);
    number!(ZMG_EVENT_OVER);
    number!(ZMG_RUN_NOT_PLAYING);
    number!(ZMG_RUN_RAN);
    number!(ZMG_RUN_WAITING);
    number!(ZMG_RUN_DEMO_FULL);
    number!(ZMG_RUN_INCONSISTENT);
    number!(ZMG_RUN_HELD);
    number!(ZMG_STAGE_NONE);
    number!(ZMG_STAGE_HOSTING);
    number!(ZMG_STAGE_CALLING);
    number!(ZMG_STAGE_WAITING);
    number!(ZMG_STAGE_SEATED);
    number!(ZMG_STAGE_PLAYING);
    number!(ZMG_STAGE_LEAVING);
    number!(ZMG_STAGE_OVER);
    number!(ZMG_SEAT_NONE);
    number!(ZMG_SEAT_FREE);
    number!(ZMG_SEAT_THERE);
    number!(ZMG_SEAT_SILENT);
    number!(ZMG_STANDING_NONE);
    number!(ZMG_STANDING_PLAYS);
    number!(ZMG_STANDING_LEFT);
    number!(ZMG_STANDING_GIVEN_UP);
    number!(ZMG_NO_END);
    number!(ZMG_WINDOW_1997);
    number!(ZMG_PHASE_NONE);
    number!(ZMG_PHASE_LISTENING);
    number!(ZMG_PHASE_GATHERING);
    number!(ZMG_PHASE_PLAYING);
    number!(ZMG_PHASE_ENDED);
    number!(ZMG_CAUSE_NONE);
    number!(ZMG_CAUSE_QUIT);
    number!(ZMG_CAUSE_FULL);
    number!(ZMG_CAUSE_INCONSISTENT);
    number!(ZMG_PACKET_SIZE);
    number!(ZMG_HEARD_DROPPED);
    number!(ZMG_HEARD_STARTED);
    number!(ZMG_HEARD_TAKEN);
    number!(ZMG_HEARD_STALE);
    number!(ZMG_HEARD_GAP);
    number!(ZMG_HEARD_LEFT);
    number!(ZMG_HEARD_NOTED);
    number!(ZMG_DROP_SHORT);
    number!(ZMG_DROP_MANY);
    number!(ZMG_DROP_LENGTH);
    number!(ZMG_DROP_SUM);
    number!(ZMG_DROP_STRANGER);
    number!(ZMG_DROP_OUT_OF_PLACE);
    number!(ZMG_DROP_VERSION);
    number!(ZMG_DROP_RANGE);
    number!(ZMG_DROP_KILL);
    number!(ZMG_DROP_TIC);
    number!(ZMG_DROP_COMMAND);
    number!(ZMG_DROP_OVERRUN);
    number!(ZMG_DROP_NOT_PLAYING);
    number!(ZMG_DROP_END);
    number!(ZMG_RECEIVED_UNOPENED);
    number!(ZMG_RECEIVED_HEARD);
    number!(ZMG_RECEIVED_STRANGER);
    number!(ZMG_RECEIVED_GIVEN_UP);
    number!(ZMG_RECEIVED_EXCLUDED);
    number!(ZMG_UNOPENED_HANDLE);
    number!(ZMG_UNOPENED_SHORT);
    number!(ZMG_UNOPENED_LONG);
    number!(ZMG_UNOPENED_SUITE);
    number!(ZMG_UNOPENED_KIND);
    number!(ZMG_UNOPENED_GAME);
    number!(ZMG_UNOPENED_RECEIVER);
    number!(ZMG_UNOPENED_TAG);
    number!(ZMG_UNOPENED_FORM);
    number!(ZMG_GIVE_UP_NOT_PLAYING);
    number!(ZMG_GIVE_UP_WAITING);
    number!(ZMG_GIVE_UP_DECIDED);
    number!(ZMG_GIVE_UP_UNTAKEN);
    number!(ZMG_GIVE_UP_ALREADY);
    number!(ZMG_GIVE_UP_NOT_A_PLAYER);
    number!(ZMG_UNSETTLED_NOT);
    number!(ZMG_UNSETTLED_NOT_A_PLAYER);
    number!(ZMG_UNSETTLED_NOT_PLAYING);
    number!(ZMG_UNSETTLED_GAP);
    number!(ZMG_UNSETTLED_BEHIND);
    number!(ZMG_UNSETTLED_OVERRUN);
    number!(ZMG_UNSETTLED_STOPPER);
    number!(ZMG_UNSETTLED_OTHER_END);
    number!(ZMG_FLAG_KILL);
    number!(ZMG_FLAG_SETUP);
    number!(ZMG_FLAG_RETRANSMIT);
    number!(ZMG_FLAG_EXIT);
    number!(ZMG_MOST_COMMANDS);
}
