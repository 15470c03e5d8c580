/* Channels. The runtime calls these hooks (runtime/chan.go):
 *
 *   racesync    without a buffer: who runs releases, who waited acquires and releases, who runs acquires; all by the channel
 *   racenotify  with a buffer: release and acquire, in one, by the slot; where an element has no bytes, by the channel, in two
 *   close       releases the channel; who finds it closed acquires that
 *
 * By its address a channel is known from the 16th byte on (hchan.raceaddr). */
#include "log.h"

/* The head of runtime.hchan. */
struct channel {
    word count, slots;
    void *buffer;
};
static bool is_closed(const struct channel *channel) {
    return *(const uint32_t *)((const char *)channel + aero_closed_of_channel) != 0;
}

/* Whether the goroutine sends. runtime.send and runtime.recv meet one that waits, and call the hook for both: first for who runs. In
 * select the line tells; where that isn't known, a full buffer is received from. */
static bool sends(const struct ordered *it, const struct channel *channel) {
    const struct code *asker = it->asker;
    if (asker->asker == CHANNEL_SEND || asker->asker == CHANNEL_RECEIVE)
        return (asker->asker == CHANNEL_SEND) ^ (int)(aero_sync(it->at)->step++ & 1);
    if (asker->asker != CHANNEL_SELECT) return (asker->is & SENDS) != 0;
    return aero_select_send ? asker->line == aero_select_send : channel && channel->count < channel->slots;
}

/* Without a buffer a message is a variable that the sender writes and the receiver reads. The way back, by which the sender goes on
 * once there is a receiver, is left out unless AERODROME_CHANNELS asks for it: with it each two blocks that meet are a cycle. */
static void meeting(struct goroutine *t, const struct ordered *it) {
    struct sync *s = aero_sync(it->at);
    unsigned step = s->step++ & 3;
    bool from_sender = it->asker->asker == CHANNEL_SEND ? step < 2 : step >= 2;
    if (step < 2) aero_waits(t);
    if (!from_sender && !aero_settings.both_ways) return;
    if (it->how == ACQUIRE) aero_acquire(t, s, it->place);
    else aero_release(t, s, 0, it->place);
}

/* What has no bytes is all alike, and a buffer of several is often a semaphore. So who has sent takes back its own; else what is
 * received was sent first. */
static void token(struct goroutine *t, const struct ordered *it, bool is_sent) {
    struct sync *s = aero_sync(it->at);
    size_t one = 0;
    if (is_sent) {
        aero_release(t, s, 1, it->place);
        return;
    }
    while (one < s->count && s->releases[one].by != t->id) one++;
    if (one == s->count) {
        aero_waits(t);
        if (!s->count) return;
        one = 0;
        aero_suffixed(t, "r", s->at, &(struct suffix){"~", s->releases[one].slot, it->place});
    }
    memmove(&s->releases[one], &s->releases[one + 1], (--s->count - one) * sizeof *s->releases);
}

/* Returns whether a message waits for another goroutine: for the sender of what is received, or for the receiver that has made room for
 * what is sent. Who takes back its own message, as who gives back a semaphore, waits for nobody, nor does who sends next. */
static bool waits_at(struct sync *s, const struct goroutine *t, bool is_sent) {
    uint64_t other = is_sent ? s->taker : s->sender;
    if (!is_sent) s->taker = s->sender == t->id ? 0 : t->id;
    s->sender = is_sent ? t->id : 0;
    return is_sent ? other && other != t->id : other != t->id;
}

/* A slot is as a lock: send k, receive k and send k + slots come in this order. Where only the channel is known it has one slot. */
static void slot(struct goroutine *t, const struct ordered *it, const struct channel *channel) {
    if (waits_at(aero_sync(it->at), t, sends(it, channel))) aero_waits(t);
    aero_suffixed(t, "w", it->at, &(struct suffix){"~", channel ? 0 : -1, it->place});
}

/* A close has written the channel. Who has closed it waits for nobody. */
static void found_closed(struct goroutine *t, const struct ordered *it) {
    if (aero_sync(it->at)->closer != t->id) aero_waits(t);
    aero_event(t, "r", it->at, it->place);
}

/* By the channel's own address. */
static void by_channel(struct goroutine *t, const struct ordered *it) {
    const struct channel *channel = (const struct channel *)(it->at - offsetof(struct channel, buffer));
    bool is_met = it->asker->asker == CHANNEL_SEND || it->asker->asker == CHANNEL_RECEIVE;
    if (!channel->slots && is_met) {
        meeting(t, it);
        return;
    }
    if (it->how == RELEASE) return;
    if (!channel->slots || (!channel->count && is_closed(channel))) {
        found_closed(t, it);
        return;
    }
    if (channel->slots > 1) token(t, it, sends(it, channel));
    else slot(t, it, channel);
}

void aero_channel(struct goroutine *t, const struct ordered *it) {
    if (it->asker->asker == CHANNEL_CLOSE) {
        if (it->how == ACQUIRE) found_closed(t, it);
        else aero_sync(it->at)->closer = t->id;
    } else if (it->how == RELEASE_ACQUIRE) slot(t, it, NULL);
    else by_channel(t, it);
}
