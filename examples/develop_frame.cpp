// develop_frame FILE: reads a frame file, develops and clamps it, and prints each site's colours by the tone curve of
// display panels. What fails is told in one line on standard error, with status 1; a refusal of the library's by its
// number, place and text. FILE may be a pipe. C++11.
//
//     c++ develop_frame.cpp $(pkg-config --cflags --libs bayer)
#include <bayer.h>

#include <array>
#include <cerrno>
#include <cstddef>
#include <cstdint>
#include <cstdlib>
#include <exception>
#include <fstream>
#include <iostream>
#include <new>
#include <stdexcept>
#include <string>
#include <system_error>
#include <vector>

namespace {

// The camera's black level: the sample that stands for no light. A frame file does not hold it. 0 is right for samples
// that had it taken off before, as those of the document's example.
const std::size_t black = 0;

// Bytes of a file that are read at a time: a block of it.
const std::size_t block_length = 512;

using Plane = std::vector<std::int32_t>;

struct Frame {
    bayer_shape shape;
    std::vector<std::uint16_t> mosaic;
};

struct Planes {
    Plane red, green, blue;
    std::vector<std::uint8_t> map;
};

// A refusal's number and place.
class Refused : public std::runtime_error {
public:
    Refused(std::size_t number, std::size_t place)
        : std::runtime_error("refused " + std::to_string(number) + " " + std::to_string(place) +
                             ": " + bayer_text(number))
    {
    }
};

void accept(const bayer_returned &returned)
{
    if (returned.number != BAYER_DONE) {
        throw Refused(returned.number, returned.place);
    }
}

// A stream that has just failed leaves the system's reason in errno.
std::system_error failed(const std::string &name)
{
    return std::system_error(errno, std::generic_category(), name);
}

// All bytes of the file. Its size is not asked for, as a pipe has none.
std::vector<std::uint8_t> contents(const std::string &path)
{
    std::ifstream stream(path, std::ios::binary);
    std::vector<std::uint8_t> file;
    std::array<char, block_length> block;
    while (stream.read(block.data(), block.size()) || stream.gcount() > 0) {
        file.insert(file.end(), block.data(), block.data() + stream.gcount());
    }
    if (!stream.eof()) {
        throw failed(path);
    }
    return file;
}

Frame read(const std::vector<std::uint8_t> &file)
{
    std::vector<std::uint16_t> samples(BAYER_READ_LENGTH(file.size()));
    const bayer_read_returned read =
        bayer_read(file.data(), file.size(), samples.data(), samples.size());
    accept({read.number, read.place});
    samples.resize(BAYER_PLANE_LENGTH(read.width, read.height));
    return {{read.width, read.height, read.phase}, samples};
}

Planes develop(const Frame &frame)
{
    const std::size_t count = frame.mosaic.size();
    const Plane empty(count);
    const std::vector<std::uint8_t> undecided(
        BAYER_MAP_LENGTH(frame.shape.width, frame.shape.height));
    Planes planes = {empty, empty, empty, undecided};
    Plane work(BAYER_WORK_LENGTH(frame.shape.width, frame.shape.height));
    accept(bayer_develop(frame.shape, black, frame.mosaic.data(), count, planes.red.data(), count,
                         planes.green.data(), count, planes.blue.data(), count, planes.map.data(),
                         planes.map.size(), work.data(), work.size()));
    return planes;
}

Plane clamped(const Plane &plane)
{
    Plane held(plane.size());
    accept(bayer_clamp(plane.data(), plane.size(), held.data(), held.size()));
    return held;
}

// As display panels show it.
Plane curved(const Plane &clamped)
{
    Plane shown(clamped.size());
    accept(bayer_curve(clamped.data(), clamped.size(), shown.data(), shown.size()));
    return shown;
}

// A full disk shows where the output is written, at the latest where it is flushed.
void print(const bayer_shape &shape, const Planes &planes)
{
    const Plane red = curved(clamped(planes.red)), green = curved(clamped(planes.green)),
                blue = curved(clamped(planes.blue));
    std::cout << "row col red green blue\n";
    for (std::size_t k = 0; k < red.size() && std::cout; k++) {
        std::cout << k / shape.width << ' ' << k % shape.width << ' ' << red[k] << ' ' << green[k]
                  << ' ' << blue[k] << '\n';
    }
    if (!std::cout.flush()) {
        throw failed("standard output");
    }
}

} // namespace

int main(int count, char **words)
{
    if (count != 2) {
        std::cerr << "usage: develop_frame FILE\n";
        return 2;
    }
    try {
        const Frame frame = read(contents(words[1]));
        print(frame.shape, develop(frame));
    } catch (const std::bad_alloc &) {
        std::cerr << "out of memory\n";
        return EXIT_FAILURE;
    } catch (const std::exception &error) {
        std::cerr << error.what() << '\n';
        return EXIT_FAILURE;
    }
    return EXIT_SUCCESS;
}
