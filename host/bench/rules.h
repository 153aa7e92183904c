// Texts of rules and records, put together.
#ifndef RULES_H
#define RULES_H

#include "texts.h"

inline std::string quoted(const std::string &text)
{
    return "\"" + text + "\"";
}

inline std::string list_of(const std::string &item, size_t times)
{
    return "[" + repeated(item + ",", times - 1) + item + "]";
}

inline std::string var(const std::string &path)
{
    return "{\"var\":" + quoted(path) + "}";
}

// An operation on operands in brackets.
inline std::string apply(const std::string &name, const std::string &operands)
{
    return "{" + quoted(name) + ":" + operands + "}";
}

inline std::string reduce(const std::string &operand, const std::string &lambda, const std::string &initial)
{
    return apply("reduce", "[" + operand + "," + lambda + "," + initial + "]");
}

// A lambda for each of so many times the record, which is its `current`.
inline std::string for_copies(size_t copies, const std::string &lambda)
{
    return reduce(list_of(var(""), copies), lambda, "0");
}

// The nth of texts of 11 bytes that differ in the last two only.
inline std::string alike(unsigned n)
{
    const char *const letters = "0123456789abcdefghijklmnopqrstuvwxyz";
    return std::string("name-name") + letters[n / 36] + letters[n % 36];
}

// An object with so many such names, and an array of so many such strings.
inline std::string members_alike(unsigned count)
{
    std::string text = "{";
    for (unsigned i = 0; i < count; i++)
        text += (i ? "," : "") + quoted(alike(i)) + ":1";
    return text + "}";
}

inline std::string strings_alike(unsigned count)
{
    std::string text = "[";
    for (unsigned i = 0; i < count; i++)
        text += (i ? "," : "") + quoted(alike(i));
    return text + "]";
}

#endif
