// strip.cpp - unifdef(1) over standard input, in memory: ./strip -DA -UB < in.c > out.c
//
// c++ strip.cpp $(pkg-config --cflags --libs unifdef)
//
// filter.c is the same in C, for a text of any length.
#include <cstdio>
#include <string>
#include <unifdef.h>

// Returns the arguments of main in the library's form: each with its zero byte.
static std::string words_of(int argc, char **argv) {
    std::string words;
    for (int i = 1; i < argc; i++) words.append(argv[i]).push_back('\0');
    return words;
}

// The program's output and message for a text, and its exit status.
struct Answer {
    std::string output, message;
    int status;
};

// Returns the answer of unifdef(1) to a text.
static Answer run(const std::string &words, const std::string &text) {
    Answer answer{std::string(text.size(), '\0'), std::string(words.size() + 80, '\0'), 0};
    unifdef_sizes sizes{};
    do {
        answer.status = unifdef_text(words.data(), words.size(), text.data(), text.size(),
                                     &answer.output[0], answer.output.size(), &answer.message[0],
                                     answer.message.size(), &sizes);
        answer.output.resize(sizes.output);
        answer.message.resize(sizes.message);
    } while (answer.status == UNIFDEF_TOO_SMALL); // Now both are long enough.
    return answer;
}

// Appends all bytes of a file. Returns whether it was read to its end.
static bool read_all(std::FILE *file, std::string &text) {
    static char chunk[65536];
    while (std::size_t got = std::fread(chunk, 1, sizeof chunk, file)) text.append(chunk, got);
    return std::ferror(file) == 0;
}

int main(int argc, char **argv) {
    std::string text;
    if (!read_all(stdin, text)) {
        std::perror("strip: stdin");
        return UNIFDEF_TROUBLE;
    }
    const Answer answer = run(words_of(argc, argv), text);
    std::fwrite(answer.output.data(), 1, answer.output.size(), stdout);
    std::fwrite(answer.message.data(), 1, answer.message.size(), stderr);
    if (std::fflush(stdout) != 0 || std::ferror(stdout)) {
        std::perror("strip: stdout");
        return UNIFDEF_TROUBLE;
    }
    return answer.status;
}
