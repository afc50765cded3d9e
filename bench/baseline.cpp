// What `bench/replay` measures the program against: answers the `a` and `f` lines of a trace from standard input.
//
//     baseline region ALIGN BYTES     a pointer that goes up, and takes back the last block only
//     baseline mem                    aligned_alloc(64, ..) of whole cells of 64 bytes, and free
//     baseline freelist MIN MAX ALIGN BYTES     freed blocks of MIN to MAX bytes, linked by their first words, over a region
//
// The answers are the program's, without its report; a new block's bytes are 0, as the program's are. Over `mem` the
// places differ: malloc's are told.
#include <charconv>
#include <cstdint>
#include <cstdio>
#include <cstdlib>
#include <cstring>
#include <memory>
#include <optional>
#include <string>
#include <string_view>
#include <unordered_map>

// A place counts bytes from the begin of the area.
struct Block {
    uint64_t place;
    uint64_t length;
};

constexpr size_t most_live = 65'536;
constexpr uint64_t cell_size = 64;

uint64_t up(uint64_t bytes, uint64_t multiple) {
    return (bytes + multiple - 1) / multiple * multiple;
}

[[noreturn]] void stop(const char *cause) {
    std::fprintf(stderr, "baseline: %s\n", cause);
    std::exit(4);
}

class Region {
public:
    Region(uint64_t align, uint64_t size)
        : align(align), size(size), bytes(static_cast<unsigned char *>(std::calloc(size, 1))) {
        if (bytes == nullptr) {
            stop("out of memory");
        }
    }

    std::optional<uint64_t> allocate(uint64_t length) {
        uint64_t place = position;
        if (length == 0 || length > size || up(length, align) > size - place) {
            return std::nullopt;
        }
        position += up(length, align);
        std::memset(bytes + place, 0, length);
        return place;
    }

    bool free(Block block) {
        if (block.place + up(block.length, align) != position) {
            return false;
        }
        position = block.place;
        return true;
    }

    unsigned char *at(uint64_t place) { return bytes + place; }

private:
    uint64_t align;
    uint64_t size;
    uint64_t position = 0;
    unsigned char *bytes;
};

class Mem {
public:
    std::optional<uint64_t> allocate(uint64_t length) {
        void *bytes = length == 0 ? nullptr : std::aligned_alloc(cell_size, up(length, cell_size));
        if (bytes == nullptr) {
            return std::nullopt;
        }
        std::memset(bytes, 0, length);
        return reinterpret_cast<uintptr_t>(bytes) - begin;
    }

    bool free(Block block) {
        std::free(reinterpret_cast<void *>(begin + block.place));
        return true;
    }

private:
    // Below malloc's first blocks, so that places have as many digits as the program's.
    uintptr_t begin = reinterpret_cast<uintptr_t>(std::make_unique<char>().get()) >> 24 << 24;
};

// A block of `least` to `greatest` bytes takes up `greatest`.
class FreeList {
public:
    FreeList(uint64_t least, uint64_t greatest, Region parent) : least(least), greatest(greatest), parent(parent) {}

    std::optional<uint64_t> allocate(uint64_t length) {
        if (!caches(length)) {
            return parent.allocate(length);
        }
        if (front == chain_end) {
            return parent.allocate(greatest);
        }
        uint64_t place = front;
        std::memcpy(&front, parent.at(place), sizeof front);
        std::memset(parent.at(place), 0, length);
        return place;
    }

    bool free(Block block) {
        if (!caches(block.length)) {
            return parent.free(block);
        }
        std::memcpy(parent.at(block.place), &front, sizeof front);
        front = block.place;
        return true;
    }

private:
    bool caches(uint64_t length) const { return least <= length && length <= greatest; }

    static constexpr uint64_t chain_end = UINT64_MAX;
    uint64_t least;
    uint64_t greatest;
    uint64_t front = chain_end;
    Region parent;
};

std::string whole_input() {
    std::string input;
    size_t length = 0;
    do {
        input.resize(length + (1 << 20));
        length += std::fread(&input[length], 1, input.size() - length, stdin);
    } while (length == input.size());
    input.resize(length);
    return input;
}

class Input {
public:
    explicit Input(std::string_view bytes) : at(bytes.data()), end(at + bytes.size()) {}

    // The letter that begins the next line, or nothing at the end.
    std::optional<char> letter() {
        while (at < end && (*at == ' ' || *at == '\t' || *at == '\n')) {
            ++at;
        }
        return at < end ? std::optional(*at++) : std::nullopt;
    }

    template <class Number> Number number() {
        while (at < end && (*at == ' ' || *at == '\t')) {
            ++at;
        }
        Number value = 0;
        auto read = std::from_chars(at, end, value);
        if (read.ec != std::errc()) {
            stop("bad line");
        }
        at = read.ptr;
        return value;
    }

private:
    const char *at;
    const char *end;
};

// Answers go out in pieces of 64 KiB.
class Output {
public:
    ~Output() { flush(); }

    void begin(char letter, uint32_t name) {
        if (length + 64 > sizeof buffer) {
            flush();
        }
        buffer[length++] = letter;
        buffer[length++] = ' ';
        number(name);
        buffer[length++] = ' ';
    }

    void number(uint64_t value) { length = std::to_chars(buffer + length, buffer + sizeof buffer, value).ptr - buffer; }

    void text(std::string_view text) {
        std::memcpy(buffer + length, text.data(), text.size());
        length += text.size();
    }

private:
    void flush() {
        if (std::fwrite(buffer, 1, length, stdout) != length || std::fflush(stdout) != 0) {
            stop("the output failed");
        }
        length = 0;
    }

    char buffer[1 << 16];
    size_t length = 0;
};

template <class Heap> class Replay {
public:
    Replay(Heap heap) : heap(std::move(heap)) { blocks.reserve(most_live); }

    void run(Input input) {
        while (auto letter = input.letter()) {
            auto name = input.number<uint32_t>();
            switch (*letter) {
            case 'a': allocate(name, input.number<uint64_t>()); break;
            case 'f': free(name); break;
            default: stop("bad line");
            }
        }
    }

private:
    // A block that isn't served takes no name.
    void allocate(uint32_t name, uint64_t length) {
        auto [at, is_new] = blocks.try_emplace(name);
        if (!is_new) {
            stop("name is live");
        }
        if (blocks.size() > most_live) {
            stop("too many live blocks");
        }
        output.begin('a', name);
        if (auto place = heap.allocate(length)) {
            at->second = Block{*place, length};
            output.number(*place);
            output.text("\n");
        } else {
            blocks.erase(at);
            output.text("null\n");
        }
    }

    void free(uint32_t name) {
        auto at = blocks.find(name);
        if (at == blocks.end()) {
            stop("name is not live");
        }
        output.begin('f', name);
        output.text(heap.free(at->second) ? "true\n" : "false\n");
        blocks.erase(at);
    }

    Heap heap;
    Output output;
    std::unordered_map<uint32_t, Block> blocks;
};

int main(int count, char **words) {
    std::string_view form = count > 1 ? words[1] : "";
    auto number = [words](int index) { return std::strtoull(words[index], nullptr, 10); };
    std::string trace = whole_input();
    if (form == "region" && count == 4) {
        Replay(Region(number(2), number(3))).run(Input(trace));
    } else if (form == "mem" && count == 2) {
        Replay(Mem()).run(Input(trace));
    } else if (form == "freelist" && count == 6) {
        Replay(FreeList(number(2), number(3), Region(number(4), number(5)))).run(Input(trace));
    } else {
        stop("usage: baseline region ALIGN BYTES | baseline mem | baseline freelist MIN MAX ALIGN BYTES");
    }
}
