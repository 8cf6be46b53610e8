// camac.hpp: camac.h for C++17. A session closes itself, texts are strings, codes are exceptions. Compiled without exceptions, the program ends where
// one would be thrown.
#ifndef CAMAC_CHECKER_HPP
#define CAMAC_CHECKER_HPP

#include <camac/camac.h>

#include <algorithm>
#include <cstdlib>
#include <optional>
#include <stdexcept>
#include <string>
#include <string_view>
#include <utility>
#include <vector>

#if defined(__cpp_exceptions)
#define CAMAC_THROW(its) throw its
#else
#define CAMAC_THROW(its) (static_cast<void>(its), std::abort())
#endif

namespace camac {

// A call that failed: its code (enum camac_code), and as what() the text of a refusal, what a misused call needs, or what the code says.
class fault : public std::runtime_error {
    int its_code;

    static std::string without_end(std::string text) {
        if (!text.empty() && text.back() == '\n') text.pop_back();
        return text;
    }

public:
    explicit fault(int code, const std::string &text = "")
        : std::runtime_error(text.empty() ? camac_code_text(code) : without_end(text)), its_code(code) {}
    [[nodiscard]] int code() const noexcept { return its_code; }
};

// CAMAC_OVERRUN, of the answer that stopped the run and of each call after it: the crate, and the wait that is not permitted.
class overrun : public fault {
public:
    unsigned crate, wait;
    explicit overrun(const camac_progress &p) : fault(CAMAC_OVERRUN), crate(p.c), wait(p.wait) {}
};

// Whether the texts were accepted, and what the program camac would print.
struct verdict {
    bool accepted;
    std::string text;
    explicit operator bool() const noexcept { return accepted; }
};

// The listing of a run with its verdict, and the bytes of its event file.
struct run_result {
    verdict listing;
    std::string events;
};

namespace detail {
inline constexpr std::size_t first_room = 4096;

// Calls with a buffer, and once more with one of the right size where it was too small. Returns the code.
template <class Call> int fill(std::string &text, Call call) {
    std::size_t size = 0;
    text.resize(first_room);
    int code = call(text.data(), text.size(), &size);
    if (code <= CAMAC_REFUSED && size > text.size()) {
        text.resize(size);
        code = call(text.data(), text.size(), &size);
    }
    text.resize(size);
    return code;
}

template <class Call> verdict judged(Call call, const char *needed = "") {
    std::string text;
    const int code = fill(text, call);
    if (code > CAMAC_REFUSED) CAMAC_THROW(fault(code, code == CAMAC_MISUSE ? needed : ""));
    return {code == CAMAC_OK, std::move(text)};
}
} // namespace detail

// What the calls of camac.h with these names do. They throw fault at codes other than CAMAC_OK and CAMAC_REFUSED.
[[nodiscard]] inline verdict tell(camac_ask ask, std::string_view plan, std::string_view script = {}) {
    return detail::judged(
        [&](char *t, std::size_t room, std::size_t *n) { return camac_tell(ask, plan.data(), plan.size(), script.data(), script.size(), t, room, n); },
        "tell needs one of camac_ask");
}
[[nodiscard]] inline verdict events(std::string_view file) {
    return detail::judged([&](char *t, std::size_t room, std::size_t *n) { return camac_events(file.data(), file.size(), t, room, n); });
}
[[nodiscard]] inline verdict explain_at(std::string_view plan, std::string_view script, std::uint32_t line, std::uint32_t column) {
    return detail::judged(
        [&](char *t, std::size_t room, std::size_t *n) {
            return camac_explain_at(plan.data(), plan.size(), script.data(), script.size(), line, column, t, room, n);
        },
        "explain_at needs a line and a column from 1 on");
}
[[nodiscard]] inline verdict response(std::string_view plan, std::string_view script, std::string_view every = {}, std::string_view within = {}) {
    return detail::judged(
        [&](char *t, std::size_t room, std::size_t *n) {
            return camac_response(plan.data(), plan.size(), script.data(), script.size(), every.data(), every.size(), within.data(), within.size(),
                                  t, room, n);
        },
        "response needs services of the script, each once at most, as adc=200");
}

// A place in a script: a service, from 1 in its order, and a line.
struct place {
    std::uint32_t service, line;
};

// What each answer of a list did, and the code at which the list ended: CAMAC_OK where all were taken, or the last of these left an event.
struct progress_list : std::vector<camac_progress> {
    int code = CAMAC_OK;
};

// A run of an accepted script. It can be moved, and not copied; one that was moved from is none.
class session {
    camac_session its = CAMAC_NONE;
    camac_progress its_last = CAMAC_PROGRESS;
    std::string its_verdict;
    bool its_pause = false;

    [[noreturn]] void fail(int code, const std::string &call) const {
        if (code == CAMAC_OVERRUN) CAMAC_THROW(overrun(its_last));
        if (code != CAMAC_MISUSE) CAMAC_THROW(fault(code));
        camac_want want = CAMAC_WANT;
        const bool is_none = camac_wants(&its, &want) == CAMAC_MISUSE;
        const char *const need = is_none                                          ? "a session that was not moved from"
                                 : call == "block" && want.kind != CAMAC_BLOCK ? "a block that is wanted"
                                 : call == "service_ahead"                     ? "a demand that is wanted"
                                                                                : "answers that begin as CAMAC_ANSWER";
        CAMAC_THROW(fault(code, call + " needs " + need));
    }

    // Fails at a code that is not CAMAC_OK.
    void test(int code, const char *call) const {
        if (code != CAMAC_OK) fail(code, call);
    }

    // Fails unless an answer was taken.
    void taken(int code, const camac_progress &progress, const char *call) {
        if (code == CAMAC_OVERRUN) its_last = progress;
        if (code != CAMAC_BUSY || progress.kind == 0) test(code, call);
        its_pause = code == CAMAC_BUSY;
    }

    // The bytes of a call with a buffer.
    template <class Call> std::string filled(Call call, const char *name) const {
        std::string bytes;
        test(detail::fill(bytes, [&](char *t, std::size_t room, std::size_t *n) { return call(&its, t, room, n); }), name);
        return bytes;
    }

    // The numbers of a call with room for them.
    template <class Call> std::vector<std::uint32_t> counted(Call call) const {
        std::vector<std::uint32_t> numbers(call(&its, nullptr, 0));
        call(&its, numbers.data(), numbers.size());
        return numbers;
    }

    void swap(session &other) noexcept {
        std::swap(its, other.its);
        std::swap(its_last, other.its_last);
        its_verdict.swap(other.its_verdict);
        std::swap(its_pause, other.its_pause);
    }

public:
    // Throws fault, with the text of the refusal where a plan or a script is refused.
    session(std::string_view plan, std::string_view script) : its_verdict(detail::first_room, '\0') {
        std::size_t size = 0;
        const int code =
            camac_open(&its, plan.data(), plan.size(), script.data(), script.size(), its_verdict.data(), its_verdict.size(), &size);
        its_verdict.resize(std::min(size, its_verdict.size())); // no verdict is longer
        if (code == CAMAC_MISUSE) its_verdict = "session needs a library that fits its header, " CAMAC_VERSION;
        if (code != CAMAC_OK) CAMAC_THROW(fault(code, its_verdict));
    }
    ~session() { camac_close(&its); }
    session(session &&other) noexcept { swap(other); }
    session &operator=(session &&other) noexcept {
        if (this != &other) {
            session none(std::move(*this));
            swap(other);
        }
        return *this;
    }
    session(const session &) = delete;
    session &operator=(const session &) = delete;

    // What check prints of the two texts.
    [[nodiscard]] const std::string &verdict() const noexcept { return its_verdict; }

    // What the next answer is for. Throws overrun where the run is stopped, and fault where it pauses (CAMAC_BUSY) or the session is none (CAMAC_MISUSE).
    [[nodiscard]] camac_want wants() const {
        camac_want want = CAMAC_WANT;
        test(camac_wants(&its, &want), "wants");
        return want;
    }

    // The operations that come next, whatever is answered, as many as `room` at most. None where the run is stopped.
    [[nodiscard]] std::vector<camac_want> ahead(std::size_t room = CAMAC_AHEAD) const {
        std::vector<camac_want> wants(std::min<std::size_t>(room, CAMAC_AHEAD), camac_want CAMAC_WANT);
        wants.resize(camac_ahead(&its, wants.data(), wants.size()));
        return wants;
    }

    // The list with which a service begins, by its number from 1, known before its demand: once it is called, the run wants exactly these.
    [[nodiscard]] std::vector<camac_want> service_ahead(std::uint32_t service, std::size_t room = CAMAC_AHEAD) const {
        std::vector<camac_want> wants(std::min<std::size_t>(room, CAMAC_AHEAD), camac_want CAMAC_WANT);
        std::size_t count = 0;
        test(camac_service_ahead(&its, service, wants.data(), wants.size(), &count), "service_ahead");
        wants.resize(count);
        return wants;
    }

    // Takes an answer, and tells what it did. Throws overrun, or fault at any other code, which leaves the run as it was. Where the run pauses after
    // the answer, is_busy tells so; an answer to a run that pauses is fault (CAMAC_BUSY).
    camac_progress next(const camac_answer &answer) {
        camac_progress progress = CAMAC_PROGRESS;
        taken(camac_next(&its, &answer, &progress), progress, "next");
        return progress;
    }

    // The same of one answer after the other, up to one that leaves an event, makes the run pause (CAMAC_BUSY) or is not taken. Throws where the
    // first is not taken.
    progress_list next(const std::vector<camac_answer> &answers) {
        progress_list did;
        did.resize(answers.size(), camac_progress CAMAC_PROGRESS);
        std::size_t taken = 0;
        did.code = camac_next_many(&its, answers.data(), did.data(), answers.size(), &taken);
        if (did.code == CAMAC_OVERRUN) its_last = did[taken];
        if (!taken) test(did.code, "next");
        its_pause = did.code == CAMAC_BUSY;
        did.resize(taken);
        return did;
    }

    // The same of a list of `ahead`, of whose members these are the answers: one of an operation, those of its cycles of a block, none of a release. Up to
    // a block of which the run wants the rest, too. It tells what each member did that was taken whole.
    progress_list next(const std::vector<camac_want> &list, const std::vector<std::vector<camac_answer>> &made) {
        std::vector<camac_answer> answers;
        std::vector<std::size_t> counts;
        for (const auto &it : made) {
            const auto kind = counts.size() < list.size() ? list[counts.size()].kind : 0;
            if (kind == CAMAC_BLOCK ? it.empty() : it.size() != (kind == CAMAC_UNLOCK ? 0 : 1)) fail(CAMAC_MISUSE, "next");
            answers.insert(answers.end(), it.begin(), it.end());
            counts.push_back(it.size());
        }
        progress_list did;
        did.resize(made.size(), camac_progress CAMAC_PROGRESS);
        std::size_t taken = 0;
        did.code = camac_next_list(&its, list.data(), counts.data(), answers.data(), did.data(), counts.size(), &taken);
        if (did.code == CAMAC_OVERRUN) its_last = did[taken];
        if (!taken) test(did.code, "next");
        its_pause = did.code == CAMAC_BUSY;
        did.resize(taken);
        return did;
    }

    // Says which blocks are made in one transfer, a sum of enum camac_mode: then such a block is one want, CAMAC_BLOCK, with CAMAC_IN_LISTS in lists, too.
    void blocks(std::uint32_t modes) { test(camac_blocks(&its, modes), "blocks"); }

    // The words that the block which is wanted still writes; none of one that reads.
    [[nodiscard]] std::vector<std::uint32_t> block_words() const { return counted(camac_block_words); }

    // Takes the answers of a block, up to the one that ends it, and tells what the last of them did. `taken` is how many were taken.
    camac_progress block(const std::vector<camac_answer> &answers, std::size_t &taken) {
        camac_progress progress = CAMAC_PROGRESS;
        this->taken(camac_block(&its, answers.data(), &progress, answers.size(), &taken), progress, "block");
        return progress;
    }

    // Takes an answer as `next` does, and tells what the next one is for, at one crossing.
    camac_progress step(const camac_answer &answer, camac_want &want) {
        camac_progress progress = CAMAC_PROGRESS;
        taken(camac_step(&its, &answer, &progress, &want), progress, "step");
        return progress;
    }

    // Sets how many steps the run makes at once, before it pauses; CAMAC_NO_LIMIT at first.
    void limit_steps(std::uint32_t most) { test(camac_limit_steps(&its, most), "limit_steps"); }

    // Whether the run pauses: it wants no answer, but go_on.
    [[nodiscard]] bool is_busy() const noexcept { return its_pause; }

    // Goes on after a pause, and tells the lockouts to release, and the event if the service ended.
    camac_progress go_on() {
        camac_progress progress = CAMAC_PROGRESS;
        const int code = camac_go_on(&its, &progress);
        its_pause = code == CAMAC_BUSY;
        if (!its_pause) test(code, "go_on");
        return progress;
    }

    // The words of the event that the last answer left; none where it left none.
    [[nodiscard]] std::vector<std::uint32_t> words() const { return counted(camac_words); }

    // What camac run writes for the last answer: its lines of the listing, and the record of the event that it left.
    [[nodiscard]] std::string item() const { return filled(camac_item, "item"); }
    [[nodiscard]] std::string record() const { return filled(camac_record, "record"); }

    // The crates whose lockout is held, the last that was taken first.
    [[nodiscard]] std::vector<std::uint32_t> held() const { return counted(camac_held); }

    // Where the run stands: the service in progress, from 1, and the line of its statement that wants; both are 0 at a demand.
    [[nodiscard]] place where() const {
        place its_place{};
        test(camac_where(&its, &its_place.service, &its_place.line), "where");
        return its_place;
    }

    // How many answers may still come.
    [[nodiscard]] std::uint32_t answers_left() const noexcept { return camac_answers_left(&its); }

    // The services of the script, in its order.
    [[nodiscard]] std::vector<camac_service_info> services() const {
        std::vector<camac_service_info> all(camac_services(&its), camac_service_info CAMAC_SERVICE_INFO);
        std::uint32_t number = 0;
        for (camac_service_info &info : all) test(camac_service(&its, ++number, &info), "services");
        return all;
    }

    // What sets inhibit and demand output of the crates back, as they were at the demand of the service in progress: before `abandon`.
    [[nodiscard]] std::vector<camac_want> back() const {
        std::vector<camac_want> wants(CAMAC_BACK, camac_want CAMAC_WANT);
        wants.resize(camac_back(&its, wants.data(), wants.size()));
        return wants;
    }

    // Leaves the service in progress, without an event. The result are the crates whose lockout is to be released, in this order.
    std::vector<std::uint32_t> abandon() {
        std::vector<std::uint32_t> crates(CAMAC_CRATES);
        std::size_t count = 0;
        test(camac_abandon(&its, crates.data(), crates.size(), &count), "abandon");
        its_pause = false;
        crates.resize(count);
        return crates;
    }

    // Begins the run anew.
    void rewind() {
        test(camac_rewind(&its), "rewind");
        its_pause = false;
    }
};

// A branch, as `play` asks it.
class branch {
public:
    virtual ~branch() = default;
    // Makes a graded-L operation; nothing where no more demands are served.
    virtual std::optional<camac_answer> demand() = 0;
    virtual camac_answer cycle(const camac_want &want) = 0;
    // Makes the first cycles of a block, where `session::blocks` allows it: at least one. As it is here, one alone.
    virtual std::vector<camac_answer> block(const camac_want &want, const session &) { return {cycle(want)}; }
    // Takes the lockout of a crate. Where it throws, the crate is not locked.
    virtual camac_answer lock(unsigned c) = 0;
    virtual void unlock(unsigned c) noexcept = 0;
    // An event is left, whose words and record the session has.
    virtual void event(const session &, const camac_progress &) {}
    // An operation threw this, or its wait was an overrun. True: the crates are set back by `cycle`, the service in progress is left, and the run goes
    // on at a demand. False: `play` throws it.
    virtual bool fault(const std::exception &, const session &) { return false; }
    // The run pauses, as limit_steps has it, and then goes on.
    virtual void pause() {}
};

namespace detail {
// A run that is played: it keeps which lockouts are held, and releases them at its end, the last that was taken first.
class player {
    session &run;
    branch &its;
    std::vector<std::uint32_t> held; // the last that was taken behind the others

    void release_last() noexcept {
        its.unlock(held.back());
        held.pop_back();
    }

    std::optional<camac_answer> make(const camac_want &want) {
        if (want.kind == CAMAC_DEMAND) return its.demand();
        if (want.kind == CAMAC_CYCLE) return its.cycle(want);
        const camac_answer answer = its.lock(want.c);
        held.push_back(want.c);
        return answer;
    }

#if defined(__cpp_exceptions)
    // Does this. Where it throws what the branch says to be a fault, the service in progress is left.
    template <class Fault, class Call> bool leaves(Call call) {
        try {
            call();
            return false;
        } catch (const Fault &why) {
            if (!its.fault(why, run)) throw;
        }
        for (const camac_want &want : run.back()) its.cycle(want);
        run.abandon();
        while (!held.empty()) release_last();
        return true;
    }
#else
    template <class, class Call> bool leaves(Call call) { return call(), false; }
#endif

    bool answer_block(const camac_want &want) {
        std::vector<camac_answer> made;
        camac_progress did = CAMAC_PROGRESS;
        std::size_t taken = 0;
        if (leaves<std::exception>([&] { made = its.block(want, run); })) return true;
        if (!leaves<overrun>([&] { did = run.block(made, taken); })) settle(did);
        return true;
    }

    // Has an operation made, and its answer taken. False where no more demands are served.
    bool answer(const camac_want &want) {
        if (want.kind == CAMAC_BLOCK) return answer_block(want);
        std::optional<camac_answer> made;
        camac_progress did = CAMAC_PROGRESS;
        if (leaves<std::exception>([&] { made = make(want); })) return true;
        if (made && !leaves<overrun>([&] { did = run.next(*made); })) settle(did);
        return made.has_value();
    }

    void settle(const camac_progress &did) {
        if (did.event) its.event(run, did);
        for (const auto *c = did.unlocked; *c; c++) release_last();
    }

    bool go_on() {
        its.pause();
        settle(run.go_on());
        return true;
    }

public:
    player(session &session, branch &branch) : run(session), its(branch), held(session.held()) {
        std::reverse(held.begin(), held.end());
        held.reserve(CAMAC_CRATES);
    }
    ~player() {
        while (!held.empty()) release_last();
    }
    void play() {
        while (run.is_busy() ? go_on() : answer(run.wants())) {}
    }
};
} // namespace detail

// Plays a run, as camac_play does: has the branch make all that is wanted, in order, until no more demands are served. Throws what the branch and
// `next` throw.
inline void play(session &session, branch &branch) { detail::player(session, branch).play(); }

// The header of an event file, behind which the records stand.
[[nodiscard]] inline std::string file_header() {
    std::string header(camac_file_header(nullptr, 0), '\0');
    camac_file_header(header.data(), header.size());
    return header;
}

// What camac run does with the text of all answers. The run is played once, and once more where it tells more than its answers let expect.
[[nodiscard]] inline run_result run(std::string_view plan, std::string_view script, std::string_view answers) {
    std::string text, file;
    std::size_t size = 4 * answers.size() + detail::first_room, file_size = size;
    int code = CAMAC_OK;
    do {
        text.resize(std::max(size, text.size()));
        file.resize(std::max(file_size, file.size()));
        code = camac_run(plan.data(), plan.size(), script.data(), script.size(), answers.data(), answers.size(), text.data(), text.size(), &size,
                         file.data(), file.size(), &file_size);
        if (code > CAMAC_REFUSED) CAMAC_THROW(fault(code));
    } while (size > text.size() || file_size > file.size());
    text.resize(size);
    file.resize(file_size);
    return {{code == CAMAC_OK, std::move(text)}, std::move(file)};
}

} // namespace camac
#endif
