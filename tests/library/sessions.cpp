// sessions.cpp: what camac::response tells; how many operations are ahead of a script played in lists, up to its second event and then to an overrun,
// and its events; how many a service begins with; what a misused call says.
//
//     sessions PLAN SCRIPT OF_LISTS
#include "common.hpp"

static void play_in_lists(camac::session &its) {
    for (unsigned events = 0;;) {
        std::vector<camac_answer> answers(its.ahead().size(), camac_answer CAMAC_ANSWER);
        std::cout << answers.size() << (answers.size() == its.ahead(1).size() ? " " : "\n");
        for (camac_answer &answer : answers) answer.x = answer.q = 1, answer.gl = 4;
        answers.front().wait = events == 2 ? 15 : 0;
        for (const camac_progress &did : its.next(answers))
            if (did.event) std::cout << "event " << (events = did.event) << " words " << its.words().size() << "\n";
    }
}

template <class Call> static void misused(Call call) {
    try {
        call();
    } catch (const camac::fault &why) {
        std::cout << why.code() << " " << why.what() << "\n";
    }
}

int main(int count, char **words) {
    if (count != 4) return 1;
    const std::string plan = read(words[1]), script = read(words[2]);
    std::cout << camac::response(plan, script).text << camac::response(plan, script, "adc=200", "adc=3").text;
    camac::session its(plan, read(words[3]));
    try {
        play_in_lists(its);
    } catch (const camac::overrun &why) {
        std::cout << "overrun " << why.crate << " wait " << why.wait << (its.ahead().empty() ? "\n" : "?\n");
    }
    misused([&] { static_cast<void>(its.service_ahead(1)); });
    its.rewind();
    std::cout << its.service_ahead(1).size() << " and " << its.service_ahead(1, 5).size() << " before a demand\n";
    misused([&] { static_cast<void>(its.service_ahead(2)); });
    const camac_answer nothing = CAMAC_ANSWER, without = {};
    const camac::progress_list did = its.next(std::vector<camac_answer>{nothing, without});
    std::cout << did.size() << " taken, code " << did.code << "\n";
    misused([&] { its.next(std::vector<camac_answer>{without}); });
    const camac::session other(std::move(its));
    misused([&] { static_cast<void>(its.wants()); });
    misused([&] { static_cast<void>(camac::explain_at(plan, script, 0, 1)); });
    misused([&] { static_cast<void>(camac::response(plan, script, "nobody=3")); });
    return 0;
}
