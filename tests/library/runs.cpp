// runs.cpp: how often camac::run has the library play a run, whose listing and event file follow. A session has to tell the same, and again after
// it is begun anew.
//
//     runs PLAN SCRIPT ANSWERS
#include <camac/camac.h>

#include <cstddef>
#include <cstdio>

static int runs = 0;

static int counted_run(const void *plan, std::size_t plan_size, const void *script, std::size_t script_size, const void *answers,
                       std::size_t answers_size, char *text, std::size_t room, std::size_t *size, void *file, std::size_t file_room,
                       std::size_t *file_size) {
    runs++;
    return camac_run(plan, plan_size, script, script_size, answers, answers_size, text, room, size, file, file_room, file_size);
}
#define camac_run counted_run
#include "common.hpp"
#include <sstream>

// Plays the answers, to their end, and tells the listing up to its last line and the event file.
static std::string played(camac::session &session, const std::string &answers) {
    std::istringstream lines(answers);
    std::string line, listing, events = camac::file_header();
    camac_want want = session.wants();
    const std::uint32_t before = session.answers_left();
    std::uint32_t count = 0, left = 0;
    for (; std::getline(lines, line); count++) {
        session.step(answer_of(line.c_str()), want);
        listing += session.item();
        events += session.record();
        left += !session.record().empty();
    }
    if (session.answers_left() != before - count) throw std::runtime_error("so many answers are not left");
    if (!session.held().empty() || session.services().at(0).gl != 3) throw std::runtime_error("the session tells otherwise");
    return listing + "ended events " + std::to_string(left) + "\n" + events;
}

int main(int count, char **words) {
    if (count != 4) return 2;
    const std::string answers = read(words[3]);
    const camac::run_result told = camac::run(read(words[1]), read(words[2]), answers);
    camac::session session(read(words[1]), read(words[2]));
    for (int i = 0; i < 2 && runs == 1; i++) {
        if (played(session, answers) != told.listing.text + told.events) return 3;
        session.rewind();
    }
    std::cout << runs << "\n" << told.listing.text << told.events;
    return told.listing ? 0 : 1;
}
