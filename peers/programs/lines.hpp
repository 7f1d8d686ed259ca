// The texts that a session sends, for the programs in C++ (see ../README.md).
#pragma once
#include "lines.h"
#include <string>
#include <vector>

static inline std::vector<std::string> texts(const std::string &name) {
    std::vector<std::string> all;
    for (int index = 0, size; (size = text_size(name.c_str(), index)) >= 0; index++)
        all.push_back(size == 5 ? std::string("Hello") : std::string(size, 'a'));
    return all;
}

static inline std::string last_part(const std::string &path) { return name_of(path.c_str()); }

static inline std::string binary_string() { return std::string((const char *)binary_message, sizeof binary_message); }
