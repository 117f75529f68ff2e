/* walk.c: all rows of a register in order, table by table in pages, put together for each subscriber. */
#include "rows.h"

static void begin_page(const struct walk *walk, struct page *page, uint64_t count) {
    *page = (struct page){0, count, count < walk->room};
}

void walk_begin(struct walk *walk, hlr *handle, uint64_t s_id, size_t room) {
    uint64_t count = 0;
    walk->handle = handle;
    walk->room = room;
    hlr_next_subscribers(handle, s_id, walk->subscribers, room, &count);
    begin_page(walk, &walk->of_subscribers, count);
    hlr_next_accesses(handle, s_id, 0, walk->accesses, room, &count);
    begin_page(walk, &walk->of_accesses, count);
    hlr_next_facilities(handle, s_id, 0, walk->facilities, room, &count);
    begin_page(walk, &walk->of_facilities, count);
    hlr_next_forwardings(handle, s_id, 0, 0, walk->forwardings, room, &count);
    begin_page(walk, &walk->of_forwardings, count);
}

/* Whether a page that was used up has another one behind it. */
static int is_used_up(const struct page *page) { return page->next == page->count && !page->is_last; }

const hlr_subscriber *walk_subscriber(struct walk *walk) {
    struct page *page = &walk->of_subscribers;
    if (is_used_up(page)) {
        uint64_t count = 0;
        hlr_next_subscribers(walk->handle, walk->subscribers[page->count - 1].s_id + 1, walk->subscribers, walk->room, &count);
        begin_page(walk, page, count);
    }
    return page->next < page->count ? &walk->subscribers[page->next++] : NULL;
}

const hlr_access *walk_access(struct walk *walk, uint64_t s_id) {
    struct page *page = &walk->of_accesses;
    if (is_used_up(page)) {
        const hlr_access *last = &walk->accesses[page->count - 1];
        uint64_t count = 0;
        hlr_next_accesses(walk->handle, last->s_id, last->ai_type + 1, walk->accesses, walk->room, &count);
        begin_page(walk, page, count);
    }
    if (page->next == page->count || walk->accesses[page->next].s_id != s_id) return NULL;
    return &walk->accesses[page->next++];
}

const hlr_facility *walk_facility(struct walk *walk, uint64_t s_id) {
    struct page *page = &walk->of_facilities;
    if (is_used_up(page)) {
        const hlr_facility *last = &walk->facilities[page->count - 1];
        uint64_t count = 0;
        hlr_next_facilities(walk->handle, last->s_id, last->sf_type + 1, walk->facilities, walk->room, &count);
        begin_page(walk, page, count);
    }
    if (page->next == page->count || walk->facilities[page->next].s_id != s_id) return NULL;
    return &walk->facilities[page->next++];
}

const hlr_forwarding_row *walk_forwarding(struct walk *walk, uint64_t s_id) {
    struct page *page = &walk->of_forwardings;
    if (is_used_up(page)) {
        const hlr_forwarding_row *last = &walk->forwardings[page->count - 1];
        uint64_t count = 0;
        hlr_next_forwardings(walk->handle, last->s_id, last->sf_type, last->start_time + 1, walk->forwardings, walk->room,
                             &count);
        begin_page(walk, page, count);
    }
    if (page->next == page->count || walk->forwardings[page->next].s_id != s_id) return NULL;
    return &walk->forwardings[page->next++];
}
