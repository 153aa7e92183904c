// Texts that are read or written, and where they come from.
#ifndef TEXTS_H
#define TEXTS_H

#include <cstdio>
#include <cstdlib>
#include <fstream>
#include <iterator>
#include <string>

inline std::string repeated(const std::string &piece, size_t times)
{
    std::string text;
    for (size_t i = 0; i < times; i++)
        text += piece;
    return text;
}

inline std::string content_of(const std::string &path)
{
    std::ifstream file(path, std::ios::binary);
    if (!file) {
        std::fprintf(stderr, "cannot read %s\n", path.c_str());
        std::exit(2);
    }
    return std::string(std::istreambuf_iterator<char>(file), std::istreambuf_iterator<char>());
}

// What a benchmark is run with: the folder of the records, and how many rounds.
struct Arguments {
    std::string folder;
    int rounds;

    Arguments(int argc, char **argv)
    {
        if (argc < 2) {
            std::fprintf(stderr, "usage: %s FOLDER [ROUNDS]\n", argv[0]);
            std::exit(2);
        }
        folder = argv[1];
        rounds = argc > 2 ? std::atoi(argv[2]) : 200;
    }

    std::string record(const char *name) const { return content_of(folder + "/" + name); }
};

#endif
