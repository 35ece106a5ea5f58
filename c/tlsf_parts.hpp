// tlsf_parts.hpp: a memory resource of C++17 over the parts of tlsf_parts.h, for std::pmr's
// containers. It isn't proved.
//
// It takes no memory but the parts'. Only one call on the parts runs at a time, as with
// tlsf_parts.h.
#ifndef TLSF_PARTS_HPP
#define TLSF_PARTS_HPP

#if __cplusplus < 201703L
#error "tlsf_parts.hpp is for C++17 or later: before, there is no std::pmr::memory_resource"
#endif

#include <cstddef>
#include <cstdlib>
#include <memory_resource>
#include <new>

#include "tlsf_parts.h"

class tlsf_parts_resource : public std::pmr::memory_resource {
public:
    /// A resource over parts that the program made. The program ends them, after the last container
    /// is gone.
    explicit tlsf_parts_resource(tlsf_parts *parts) noexcept : parts_(parts) {}

    tlsf_parts_resource(const tlsf_parts_resource &) = delete;
    tlsf_parts_resource &operator=(const tlsf_parts_resource &) = delete;

    /// The parts: for tlsf_parts_stats and tlsf_parts_check.
    tlsf_parts *parts() const noexcept { return parts_; }

protected:
    /// Answers a block at a multiple of `align`, of the part for these bytes. Throws std::bad_alloc
    /// where that part is full, or none is large enough. A build without exceptions ends instead.
    void *do_allocate(std::size_t bytes, std::size_t align) override
    {
        void *block = tlsf_parts_aligned_alloc(parts_, align, bytes);
        if (block == nullptr) {
#ifdef __cpp_exceptions
            throw std::bad_alloc();
#else
            std::abort();
#endif
        }
        return block;
    }

    /// Frees the block. Does nothing where no live block has the pointer.
    void do_deallocate(void *block, std::size_t, std::size_t) noexcept override
    {
        tlsf_parts_free(parts_, block);
    }

    /// Only the resource itself may free its blocks.
    bool do_is_equal(const std::pmr::memory_resource &other) const noexcept override
    {
        return this == &other;
    }

private:
    tlsf_parts *parts_;
};

#endif
