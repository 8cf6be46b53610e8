// common.hpp: what the test programs in C++ share.
#pragma once
#include <camac/camac.hpp>
#include <fstream>
#include <iostream>
#include <iterator>

static inline std::string read(const char *path) {
    std::ifstream file(path, std::ios::binary);
    return {std::istreambuf_iterator<char>(file), std::istreambuf_iterator<char>()};
}

// An answer of a text "X Q WORD WAIT GL", the last three in hexadecimal digits. Throws for another.
static inline camac_answer answer_of(const char *text) {
    camac_answer its = CAMAC_ANSWER;
    unsigned x, q, wait;
    if (std::sscanf(text, "%u %u %x %x %x", &x, &q, &its.word, &wait, &its.gl) != 5) throw std::runtime_error(text);
    its.x = x > 0, its.q = q > 0, its.wait = static_cast<std::uint8_t>(wait);
    return its;
}
