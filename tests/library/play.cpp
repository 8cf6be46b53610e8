// play.cpp: plays a script on listed answers, by camac_play or by camac::play. Prints what the branch is asked and told, and the code.
//
//     play PLAN SCRIPT c|cpp LIMIT ANSWER ..     ANSWER is "X Q WORD WAIT GL" or "fault"; where none is left, the run ends. A block takes
//                                                those up to "end"
#include "common.hpp"

static constexpr std::uint32_t MODES = CAMAC_Q_STOP | CAMAC_Q_REPEAT | CAMAC_SCAN | CAMAC_WRITES;
static char **answers;

static std::optional<camac_answer> answered(unsigned kind, unsigned c, unsigned n) {
    static const char *const kinds[] = {"", "demand", "cycle", "lock"};
    std::cout << kinds[kind] << " " << c << " " << n << "\n";
    if (!*answers) return {};
    return answer_of(*answers++);
}

static std::vector<camac_answer> answered_block(const camac_want &want) {
    std::vector<camac_answer> made;
    std::cout << "block " << +want.mode << " " << +want.n << " " << +want.a << " " << want.cycles << " " << want.words << "\n";
    while (*answers && std::string(*answers) != "end") made.push_back(answer_of(*answers++));
    if (*answers) answers++;
    return made;
}

static void unlocked(unsigned c) { std::cout << "unlock " << c << "\n"; }
static void event(const camac_progress &its, std::size_t words) {
    std::cout << "event " << its.event << " service " << its.event_service << " words " << words << "\n";
}
static void faulty(std::uint32_t line) { std::cout << "fault at line " << line << "\n"; }

static int by_c(const std::string &plan, const std::string &script, std::uint32_t limit) {
    camac_session s = CAMAC_NONE;
    camac_branch branch = CAMAC_BRANCH;
    branch.make = [](void *session, const camac_want *want, camac_answer *answer) -> int {
        std::uint32_t line = 0;
        try {
            const auto made = answered(want->kind, want->c, want->n);
            if (made) *answer = *made;
            return made ? CAMAC_MADE : CAMAC_END;
        } catch (const std::runtime_error &) {
            if (camac_where(static_cast<camac_session *>(session), nullptr, &line) == CAMAC_OK) faulty(line);
            return CAMAC_FAULT;
        }
    };
    branch.block = [](void *, const camac_session *session, const camac_want *want, camac_answer *of_block, std::size_t *count) -> int {
        std::uint32_t line = 0;
        try {
            const auto made = answered_block(*want);
            if (made.size() > *count) return CAMAC_END;
            *count = made.size();
            std::copy(made.begin(), made.end(), of_block);
            return CAMAC_MADE;
        } catch (const std::runtime_error &) {
            if (camac_where(session, nullptr, &line) == CAMAC_OK) faulty(line);
            return CAMAC_FAULT;
        }
    };
    branch.unlock = [](void *, std::uint32_t c) { unlocked(c); };
    branch.event = [](void *, const camac_session *session, const camac_progress *its) { event(*its, camac_words(session, nullptr, 0)); };
    branch.pause = [](void *) { std::cout << "pause\n"; };
    int code = camac_open(&s, plan.data(), plan.size(), script.data(), script.size(), nullptr, 0, nullptr);
    if (code == CAMAC_OK) code = camac_limit_steps(&s, limit);
    if (code == CAMAC_OK) code = camac_blocks(&s, MODES);
    if (code == CAMAC_OK) code = camac_play(&s, &branch, &s);
    camac_close(&s);
    return code;
}

struct listed : camac::branch {
    std::optional<camac_answer> demand() override { return answered(CAMAC_DEMAND, 0, 0); }
    camac_answer cycle(const camac_want &want) override { return answered(want.kind, want.c, want.n).value(); }
    camac_answer lock(unsigned c) override { return answered(CAMAC_LOCK, c, 0).value(); }
    std::vector<camac_answer> block(const camac_want &want, const camac::session &) override { return answered_block(want); }
    void unlock(unsigned c) noexcept override { unlocked(c); }
    void event(const camac::session &session, const camac_progress &its) override { ::event(its, session.words().size()); }
    bool fault(const std::exception &why, const camac::session &session) override {
        if (why.what() == std::string("fault")) return faulty(session.where().line), true;
        return false;
    }
    void pause() override { std::cout << "pause\n"; }
};

static int by_cpp(const std::string &plan, const std::string &script, std::uint32_t limit) {
    try {
        camac::session session(plan, script);
        listed branch;
        session.limit_steps(limit);
        session.blocks(MODES);
        camac::play(session, branch);
    } catch (const camac::fault &why) {
        return why.code();
    } catch (const std::bad_optional_access &) {
    }
    return CAMAC_OK;
}

int main(int count, char **words) {
    if (count < 5) return 9;
    answers = words + 5;
    const auto limit = static_cast<std::uint32_t>(std::stoul(words[4]));
    return (std::string(words[3]) == "c" ? by_c : by_cpp)(read(words[1]), read(words[2]), limit);
}
