/* A guest that does anything to a port of mscp.h: a million random registers, rings, messages, volumes and outcomes.
 *
 *     guests [STEPS [SEED]]
 *
 * After each call SA shows what a plain model of the initialisation says, or a fatal error that has a name; each action
 * touches only memory that the guest has named; and the credits are never more than the host's. Prints what is wrong,
 * and ends with 1 where something is. */
#include "chance.h"
#include "machine.h"

enum { FIRST_STEP, WRAPPED, SECOND_STEP, THIRD_STEP, PURGING, PROBING, CLEARING, LAST_STEP, UP, DEAD };
enum { DESCRIPTORS = 8, BUFFERS = 4096 };
static const uint16_t FATAL[] = {1, 2, 6, 7, 9, 14, 20, 21};

/* What the guest has said since it wrote IP. */
static struct {
    int stage;
    uint16_t first, second, shown; /* by a wrap, or of a fatal error */
    bool answers;                  /* it has answered a step that isn't taken */
    uint16_t word;
    bool has_area;
    uint32_t base, end;                /* of the rings */
    uint32_t descriptors[DESCRIPTORS]; /* of the slots that were read and are the port's, the last ones */
    uint32_t descriptors_count;
    uint32_t addresses[BUFFERS], counts[BUFFERS]; /* where the data of its messages are */
    uint32_t buffers_count;
    uint32_t ends, credits;
} guest;

static bool has_volume[UNITS], is_protected[UNITS];
static uint64_t kinds[8], fatal[32], ups, steps; /* what came */

/* ---- chance */

static bool by_chance(uint32_t in_a_thousand)
{
    return below(1000) < in_a_thousand;
}

static void must(const char *what, bool holds)
{
    if (!holds) {
        printf("step %llu: %s\n", (unsigned long long)steps, what);
        exit(1);
    }
}

/* ---- the model */

static void forget(int stage)
{
    memset(&guest, 0, sizeof guest);
    guest.stage = stage;
}

static void begin_to_clear(void)
{
    guest.stage = guest.has_area ? CLEARING : DEAD;
}

static void take_step(void)
{
    guest.answers = false;
    switch (guest.stage) {
    case FIRST_STEP:
        guest.first = guest.word;
        guest.stage = guest.word & 0x4000 ? WRAPPED : SECOND_STEP;
        guest.shown = guest.word & 0x4000 ? guest.word : 0;
        break;
    case SECOND_STEP:
        guest.second = guest.word;
        guest.stage = THIRD_STEP;
        break;
    case THIRD_STEP:
        guest.base = (uint32_t)(guest.word & 0x7FFF) << 16 | (guest.second & 0xFFFE);
        guest.end = guest.base + (4u << (guest.first >> 8 & 7)) + (4u << (guest.first >> 11 & 7));
        guest.has_area = guest.base >= 8;
        guest.stage = PURGING;
        if (guest.word < 0x8000)
            begin_to_clear();
        break;
    }
}

static void write_sa(uint16_t word)
{
    is("SA is written", mscp_port_write_sa(machine.port, word), MSCP_DONE);
    if ((guest.stage == FIRST_STEP && word >= 0x8000) || guest.stage == SECOND_STEP || guest.stage == THIRD_STEP) {
        guest.answers = true;
        guest.word = word;
    } else if (guest.stage == WRAPPED) {
        guest.shown = word;
    } else if (guest.stage == PURGING) {
        guest.stage = word == 0 ? PROBING : DEAD;
    } else if (guest.stage == LAST_STEP && (word & 1)) {
        guest.stage = UP;
        ups++;
    }
}

static void read_ip(void)
{
    is("IP is read", mscp_port_read_ip(machine.port), MSCP_DONE);
    if (guest.stage == PROBING)
        begin_to_clear();
}

static uint16_t shown(void)
{
    switch (guest.stage) {
    case FIRST_STEP: return 0x0B40;
    case SECOND_STEP: return (uint16_t)(0x1000 | guest.first >> 8);
    case THIRD_STEP: case CLEARING: return (uint16_t)(0x2000 | (guest.first & 0xFF));
    case LAST_STEP: return 0x4133;
    case WRAPPED: case DEAD: return guest.shown;
    default: return 0;
    }
}

/* SA is right. A fatal error has a name, and all that the guest had said is forgotten. */
static void judge_sa(void)
{
    uint16_t sa = (uint16_t)mscp_port_read_sa(machine.port);
    if (guest.stage != WRAPPED && sa >= 0x8000 && sa != guest.shown) {
        bool named = false;
        for (size_t i = 0; i < COUNT(FATAL); i++)
            named = named || sa == 0x8000 + FATAL[i];
        must("a fatal error without a name", named);
        must("a fatal error after another", guest.shown == 0);
        fatal[sa & 31]++;
        forget(DEAD);
        guest.shown = sa;
    }
    must("SA shows something else", sa == shown());
}

/* ---- what may be touched */

static bool is_in_area(uint32_t address, uint32_t count)
{
    return guest.has_area && guest.base - 8 <= address && address + count <= guest.end;
}

static bool is_in_packet(uint32_t address, uint32_t count)
{
    for (uint32_t i = 0; i < DESCRIPTORS && i < guest.descriptors_count; i++) {
        uint32_t text = guest.descriptors[i] & 0x3FFFFE;
        if ((text < 4 ? 0 : text - 4) <= address && address + count <= text + 64)
            return true;
    }
    return false;
}

static bool is_in_buffer(uint32_t address, uint32_t count)
{
    for (uint32_t i = 0; i < guest.buffers_count; i++)
        if (guest.addresses[i] <= address && (uint64_t)address + count <= (uint64_t)guest.addresses[i] + guest.counts[i])
            return true;
    return false;
}

/* What is written to the area is zeros while it is cleared, and then a slot that is given back, or an interrupt word. */
static bool is_of_area(const struct mscp_action *action)
{
    uint32_t value = number(action->bytes, action->count < 4 ? action->count : 4);
    if (guest.stage == CLEARING)
        return value == 0;
    return (action->count == 4 && value >> 30 == 1 && action->address >= guest.base) ||
           (action->count == 2 && value == 1 && action->address < guest.base);
}

static bool moves_rightly(const struct mscp_action *action)
{
    bool writes = action->opcode == MSCP_WRITE || action->opcode == MSCP_ERASE;
    return action->unit < UNITS && has_volume[action->unit] && !(writes && is_protected[action->unit]) &&
           action->block < 311200 && action->count <= MSCP_BLOCK;
}

static void judge(const struct mscp_action *action)
{
    uint32_t address = action->address, count = action->count;
    kinds[action->kind & 7]++;
    switch (action->kind) {
    case MSCP_ACTION_READ:
        must("a read of nothing, or too much", count >= 1 && count <= 64);
        must("a read of memory that wasn't named", is_in_area(address, count) || is_in_packet(address, count));
        break;
    case MSCP_ACTION_WRITE:
        must("a write of nothing, or too much", count >= 1 && count <= 64);
        must("a write to memory that wasn't named",
             (is_in_area(address, count) && is_of_area(action)) || is_in_packet(address, count));
        break;
    case MSCP_ACTION_TRANSFER:
        must("a block that may not be moved", moves_rightly(action));
        must("data of nothing, or too much", count >= 1 && count <= MSCP_BLOCK);
        must("data where no buffer was named", is_in_buffer(address, count));
        break;
    case MSCP_ACTION_INTERRUPT:
        must("another vector", action->vector == (guest.first & 0x7F) * 4 && action->vector != 0);
        break;
    default: must("a kind that has no name", action->kind == MSCP_ACTION_PAUSE);
    }
}

/* ---- actions */

/* What was read may name more. */
static void learn(const struct mscp_action *action)
{
    const uint8_t *bytes = machine.memory + action->address;
    if (action->count == 4 && bytes[3] >= 0x80)
        guest.descriptors[guest.descriptors_count++ % DESCRIPTORS] = number(bytes, 4);
    if (action->count >= 12 && guest.buffers_count < BUFFERS) {
        guest.addresses[guest.buffers_count] = action->count < 20 ? 0 : number(bytes + 16, 4);
        guest.counts[guest.buffers_count++] = action->count < 16 ? 0 : number(bytes + 12, 4);
    }
}

static void went(const struct mscp_action *action, uint32_t outcome)
{
    if (guest.answers && action->kind == MSCP_ACTION_PAUSE)
        take_step();
    if (outcome != MSCP_OUTCOME_DONE || action->kind != MSCP_ACTION_WRITE)
        return;
    if (guest.stage == CLEARING && action->address + action->count == guest.end)
        guest.stage = LAST_STEP;
    if (action->count >= 12) {
        guest.ends += (action->bytes[2] & 15) > 0;
        guest.credits += action->bytes[2] & 15;
        must("more credits than the host's", guest.credits <= guest.ends + HOST_CREDITS - 1);
    }
}

/* Tells what isn't wanted: nothing is changed. */
static void tell_wrongly(const struct mscp_action *action)
{
    static uint8_t bytes[128];
    uint32_t length = below(sizeof bytes);
    if (action->kind == MSCP_ACTION_READ)
        is("no read", mscp_port_went(machine.port, MSCP_OUTCOME_DONE, 0), MSCP_UNASKED);
    if (action->kind != MSCP_ACTION_READ || length != action->count)
        is("other bytes", mscp_port_was_read(machine.port, bytes, length), MSCP_UNASKED);
    is("no outcome", mscp_port_went(machine.port, 6 + below(1000), 0), MSCP_BAD_OUTCOME);
}

static void act_somehow(void)
{
    int32_t (*next)(struct mscp_port *, struct mscp_action *) = by_chance(100) ? mscp_port_next_message : mscp_port_next;
    struct mscp_action action, again;
    uint32_t outcome, status = any() & 0xFFFF;
    memset(&action, 0, sizeof action);
    if (next(machine.port, &action) != MSCP_DONE)
        return;
    again = action;
    must("it wants the same again", next(machine.port, &again) == MSCP_DONE && memcmp(&again, &action, sizeof action) == 0);
    must("no message", next == mscp_port_next || action.kind != MSCP_ACTION_TRANSFER);
    judge(&action);
    if (by_chance(20))
        tell_wrongly(&action);
    outcome = perform(&action);
    if (by_chance(3))
        outcome = 1 + below(5);
    if (action.kind == MSCP_ACTION_READ && outcome == MSCP_OUTCOME_DONE) {
        is("it is read", mscp_port_was_read(machine.port, machine.memory + action.address, action.count), MSCP_DONE);
        learn(&action);
        return;
    }
    is("it went", mscp_port_went(machine.port, outcome, (uint16_t)(status % 32 < 5 ? status | 8 : status)), MSCP_DONE);
    went(&action, outcome);
}

/* ---- what the guest does */

/* A word that its step may want, or any. */
static uint16_t some_word(void)
{
    static const uint16_t SOME[] = {0x8000, 0xBFFF, 0xC000, 0x9280, 0x80FF, 0, 1, 2, 8, 0x1000, 0x1002, 0x8001};
    return by_chance(700) ? SOME[below(COUNT(SOME))] : (uint16_t)any();
}

/* The text of a command, mostly one that makes sense. */
static void write_text(uint8_t *text)
{
    static const uint8_t OPCODES[] = {1, 2, 3, 4, 8, 9, 9, 9, 10, 11, 16, 18, 32, 33, 33, 33, 34, 34};
    uint8_t opcode = by_chance(980) ? OPCODES[below(COUNT(OPCODES))] : (uint8_t)any();
    for (unsigned i = 0; i < 64; i++)
        text[i] = by_chance(20) ? (uint8_t)any() : 0;
    put(text, 4, by_chance(999) ? any() : 1);
    put(text + 4, 2, by_chance(900) ? 2 * below(2) : below(6));
    text[8] = opcode;
    put(text + 12, 4, by_chance(900) ? 2 * below(4096) : any());
    put(text + 16, 4, by_chance(900) ? 2 * below(MEMORY / 2) : any());
    put(text + 28, 4, by_chance(950) ? below(311200) : any());
    if (opcode == MSCP_SET_CONTROLLER_CHARACTERISTICS) {
        put(text + 12, 4, by_chance(500) ? 0x00800000 : 0);
        put(text + 16, 2, below(4)); /* seconds */
    }
}

/* A slot of either ring, mostly of the port's, whose packet lies somewhere near, or anywhere. */
static void fill_slot(void)
{
    uint32_t slot = guest.base + 4 * below((guest.end - guest.base) / 4);
    uint32_t text = by_chance(998) ? 0x2004 + 128 * below(64) : any() & 0x3FFFFE;
    if (slot > MEMORY - 4)
        return;
    put(machine.memory + slot, 4,
        text | (by_chance(900) ? 0x80000000u : 0) | (by_chance(500) ? 0x40000000u : 0) | (any() & 1));
    if (text > MEMORY - 64 || text < 4)
        return;
    put(machine.memory + text - 4, 4, by_chance(997) ? 12 + below(53) : by_chance(500) ? any() : 32 | any() << 24);
    if (by_chance(800))
        put(machine.memory + text - 4, 4, 32);
    write_text(machine.memory + text);
}

static void change_a_volume(void)
{
    uint16_t unit = (uint16_t)below(UNITS + 1);
    bool stays = by_chance(300), comes = by_chance(700), protects = by_chance(300);
    int32_t status = stays ? mscp_port_protect(machine.port, unit, protects ? any() | 1 : 0)
                   : comes ? insert(unit, protects) : mscp_port_volume_went(machine.port, unit);
    is("a unit", status, unit < UNITS ? MSCP_DONE : MSCP_UNKNOWN_UNIT);
    if (unit < UNITS) {
        has_volume[unit] = stays ? has_volume[unit] : comes;
        is_protected[unit] = (stays || comes) && protects;
    }
}

static void write_ip(void)
{
    is("IP", mscp_port_write_ip(machine.port), MSCP_DONE);
    forget(FIRST_STEP);
}

/* The whole initialisation, with rings of some length and at some base. */
static void boot(void)
{
    uint16_t rings = (uint16_t)(by_chance(900) ? below(3) << 11 | below(3) << 8 : any() & 0x3F00);
    uint16_t words[4] = {(uint16_t)(0x8000 | rings | (any() & 0xFF)), (uint16_t)(0x1000 + 2 * below(64)), 0, 1};
    write_ip();
    for (unsigned i = 0; i < 4; i++) {
        write_sa(words[i]);
        for (unsigned actions = 0; actions < 40 && guest.stage < UP && (i < 3 || actions == 0); actions++) {
            act_somehow();
            judge_sa();
        }
    }
}

static void do_something(void)
{
    uint32_t chance = below(1000);
    if (chance < 600) act_somehow();
    else if (chance < 605 && guest.stage != UP) boot();
    else if (chance < 606) write_ip();
    else if (chance < 625) write_sa(some_word());
    else if (chance < 720) read_ip();
    else if (chance < 920 && guest.has_area) fill_slot();
    else if (chance < 930) machine.memory[below(MEMORY)] = (uint8_t)any();
    else if (chance < 970) mscp_port_look_again(machine.port);
    else if (chance < 990) mscp_port_tick(machine.port);
    else if (chance < 992) change_a_volume();
}

int main(int words, char **word)
{
    uint64_t most = words > 1 ? strtoull(word[1], NULL, 10) : 1000000;
    state = words > 2 ? strtoull(word[2], NULL, 10) | 1 : 1;
    build(&RQDX3);
    has_volume[0] = has_volume[2] = true;
    for (steps = 0; steps < most && wrong == 0; steps++) {
        if (guest.buffers_count == BUFFERS)
            write_ip();
        do_something();
        judge_sa();
    }
    for (unsigned kind = MSCP_ACTION_PAUSE; kind <= MSCP_ACTION_TRANSFER; kind++)
        must("each kind of action came often", most < 1000000 || kinds[kind] > 100);
    for (size_t i = 0; i < COUNT(FATAL); i++)
        must("each fatal error came", most < 1000000 || fatal[FATAL[i]] > 0);
    must("the rings were often in use", most < 1000000 || ups > 100);
    return wrong;
}
