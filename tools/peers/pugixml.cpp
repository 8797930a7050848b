// How fast pugixml reads a file that is in memory, and finds the elements of the three queries by XPath.
#include <chrono>
#include <cstdio>
#include <fstream>
#include <iterator>
#include <pugixml.hpp>
#include <vector>

int main(int argc, char **argv) {
    if (argc != 2) return 2;
    std::ifstream in(argv[1], std::ios::binary);
    std::vector<char> bytes((std::istreambuf_iterator<char>(in)), std::istreambuf_iterator<char>());
    using clock = std::chrono::steady_clock;
    double size = static_cast<double>(bytes.size());
    pugi::xml_document document;
    auto a = clock::now();
    pugi::xml_parse_result result = document.load_buffer_inplace(bytes.data(), bytes.size());
    auto b = clock::now();
    size_t found = document.select_nodes("/day/stop").size() + document.select_nodes("//stop").size() + document.select_nodes("/day//tour/*").size();
    auto c = clock::now();
    double parse = std::chrono::duration<double>(b - a).count();
    double all = std::chrono::duration<double>(c - a).count();
    std::printf("pugixml %s: parse %.0f MB/s, parse and query %.0f MB/s, %zu matches\n", result ? "ok" : "error", size / parse / 1e6, size / all / 1e6, found);
}
