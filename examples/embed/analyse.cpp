// The same as analyse.c, with a class that closes its project.
#include <iostream>
#include <stdexcept>
#include <string>
#include <string_view>
#include "morph.h"

class Project {
    morph_project project = MORPH_PROJECT_NONE;

    static const uint8_t *bytes(std::string_view text) { return reinterpret_cast<const uint8_t *>(text.empty() ? "" : text.data()); }
    static void check(uint32_t status) { if (status != MORPH_OK) throw std::runtime_error(morph_status_name(status)); }

public:
    Project() = default;
    Project(const Project &) = delete;
    Project &operator=(const Project &) = delete;
    ~Project() { morph_close(&project); }

    void put(std::string_view name, std::string_view content) { check(morph_put(&project, bytes(name), name.size(), bytes(content), content.size())); }
    void open() { check(morph_open(&project)); }

    // the reply to a word, with room made where it needs more
    std::string up(std::string_view net, std::string_view word)
    {
        std::string out(256, '\0');
        morph_reply reply;
        uint32_t status;
        while ((status = morph_up(&project, bytes(net), net.size(), bytes(word), word.size(), reinterpret_cast<uint8_t *>(&out[0]), out.size(), &reply)) == MORPH_NO_ROOM)
            out.resize(reply.len);
        check(status);
        return out.substr(reply.at, reply.len - reply.at);
    }
};

int main(int argc, char **argv)
{
    Project project;
    project.put("project", "xfst noun.xfst\nrequire Noun\n");
    project.put("noun.xfst", "define Noun [{cat} | {dog}] \"+N\":0 [\"+Sg\":0 | \"+Pl\":s] ;\n");
    project.open();
    for (int i = 1; i < argc; i++)
        std::cout << argv[i] << '\n' << project.up("Noun", argv[i]);
}
