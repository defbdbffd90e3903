// The calls from C++: the canonical form of a name with an entity, a refusal as an exception, CDATA sections, a strict reading, a
// list's tokens, a register.
//
//     c++ -std=c++17 canonical.cpp $(pkg-config --cflags --libs govlezna)
#include "govlezna.h"

#include <algorithm>
#include <iostream>
#include <stdexcept>
#include <string>
#include <string_view>
#include <vector>

namespace {

struct Refusal : std::runtime_error {
    Refusal(std::uint32_t number, const std::uint64_t answer[2])
        : std::runtime_error("refused by " + std::to_string(number) + ": " + std::to_string(answer[0]) + ", " +
                             std::to_string(answer[1]))
    {
    }
};

const std::uint8_t *bytes(std::string_view text)
{
    return reinterpret_cast<const std::uint8_t *>(text.data());
}

std::uint8_t *room(std::string &text)
{
    return reinterpret_cast<std::uint8_t *>(text.data());
}

// An entity table: a list of commands without its end, and a pool.
struct Table {
    std::string list, pool;

    void define(std::string_view name, std::string_view text)
    {
        if (name.size() > 0xFF || text.size() > 0xFFFF || pool.size() + name.size() + text.size() > 0xFFFFFFFF)
            throw std::length_error("a definition holds a name of 255 and a text of 65,535 bytes");
        list += '\1';
        put(pool.size(), 4), put(name.size(), 1);
        pool += name;
        put(pool.size(), 4), put(text.size(), 2);
        pool += text;
    }

private:
    void put(std::size_t number, int width)
    {
        for (; width > 0; width--, number >>= 8)
            list += static_cast<char>(number & 0xFF);
    }
};

// XML 1.0, depth 8, limit 100. The first call tells how long the form is.
std::string canonical_form(std::string_view text, const Table &table, std::uint64_t &openings)
{
    const std::string list = table.list + '\0';
    std::string out;
    std::uint8_t scratch[4];
    std::uint64_t answer[2];
    for (;;) {
        std::uint32_t number = govlezna_canonical_form(bytes(text), text.size(), 0, 8, 100, bytes(list), list.size(),
                                                       bytes(table.pool), table.pool.size(), scratch,
                                                       sizeof scratch, room(out), out.size(), answer);
        if (number == 0) {
            openings = answer[1];
            return out;
        }
        if (number != GOVLEZNA_NO_ROOM)
            throw Refusal(number, answer);
        out.resize(answer[0]);
    }
}

void accept(std::uint32_t number, const std::uint64_t answer[2])
{
    if (number != 0)
        throw Refusal(number, answer);
}

// Each call checks all that it is handed; so it gets windows, each from where the last one left off to behind the next '>'. Such an
// end is within no character and no `]]>`. A window without a cut is a part of the section.
std::string cdata(std::string_view text)
{
    std::string sections = "<![CDATA[";
    std::uint64_t answer[2];
    accept(govlezna_check_utf8(bytes(text), text.size(), answer), answer);
    do {
        govlezna_cursor cursor = { 0, 0 };
        std::size_t mark = text.find('>', 1);
        std::size_t window = mark == text.npos ? text.size() : mark + 1;
        accept(govlezna_cdata_next(bytes(text), window, &cursor, answer), answer);
        sections.append(text.substr(0, answer[1]));
        text.remove_prefix(answer[1]);
        if (!cursor.finished)
            sections.append("]]><![CDATA[");
    } while (!text.empty());
    return sections.append("]]>");
}

// XML 1.0, no table. The value has at most as many bytes as the text.
std::string read_strictly(std::string_view text)
{
    const std::string no_table(1, '\0');
    std::string out(text.size(), '\0');
    std::uint64_t answer[2];
    accept(govlezna_normalize_attribute_value_strict(bytes(text), text.size(), 1, 8, 100, bytes(no_table), no_table.size(),
                                                     nullptr, 0, room(out), out.size(), answer),
           answer);
    out.resize(answer[0]);
    return out;
}

// XML 1.0, no table. Asked first for the length of the scratch, then for that of the list; then each window goes up to a space.
std::vector<std::string> tokens(std::string_view text)
{
    const std::string no_table(1, '\0');
    std::string scratch, out;
    std::vector<std::string> found;
    std::uint64_t answer[2], offset;
    std::uint32_t number;
    while ((number = govlezna_normalize_nmtokens(bytes(text), text.size(), 1, 8, 100, bytes(no_table), no_table.size(), nullptr,
                                                 0, room(scratch), scratch.size(), room(out), out.size(), answer)) != 0) {
        if (number == GOVLEZNA_NO_SCRATCH)
            scratch.resize(answer[0]);
        else if (number == GOVLEZNA_NO_ROOM)
            out.resize(answer[0]);
        else
            throw Refusal(number, answer);
    }
    for (std::string_view rest = out; !rest.empty(); rest.remove_prefix(offset)) {
        offset = 0;
        accept(govlezna_next_nmtoken(bytes(rest), std::min(rest.find(' ', 1), rest.size()), &offset, answer), answer);
        found.emplace_back(rest.substr(answer[0], answer[1]));
    }
    return found;
}

// A buffer and its used length. Each add makes room for one more form.
struct Register {
    std::string buffer;
    std::uint64_t used = 0;

    std::uint64_t add(std::string_view form)
    {
        std::uint64_t answer[2];
        buffer.resize(used + 8 + form.size());
        accept(govlezna_register_add(bytes(form), form.size(), room(buffer), buffer.size(), &used, answer), answer);
        return answer[0];
    }
};

} // namespace

int main()
{
    Table table;
    std::uint64_t openings;
    table.define("sail", "Gro&#xDF;segel");
    std::cout << canonical_form("Panel &sail; <3>", table, openings) << '\n';
    std::cout << "openings: " << openings << '\n';
    try {
        canonical_form("Panel &boom;", table, openings);
    } catch (const Refusal &refusal) {
        std::cout << refusal.what() << '\n';
    }
    std::cout << cdata("]]>]]>") << '\n';
    try {
        table.define("boom", std::string(65536, 'x'));
    } catch (const std::length_error &error) {
        std::cout << error.what() << '\n';
    }
    try {
        std::cout << read_strictly("Gro&#xDF;segel") << '\n';
        std::cout << read_strictly("Fock&#1;") << '\n';
    } catch (const Refusal &refusal) {
        std::cout << refusal.what() << '\n';
    }
    for (const std::string &token : tokens(" p1\t p2  p3 "))
        std::cout << "token: " << token << '\n';
    Register names;
    for (const char *form : { "Fock", "Baum", "Fock" })
        std::cout << form << ": " << names.add(form) << '\n';
}
