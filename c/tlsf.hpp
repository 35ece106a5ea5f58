// tlsf.hpp: a memory resource of C++17 over a heap of tlsf.h, for std::pmr's containers. It isn't
// proved.
//
// It takes no memory but the heap's. Only one call on a heap runs at a time, as with tlsf.h. So
// threads put a lock around their containers.
#ifndef TLSF_HPP
#define TLSF_HPP

#if __cplusplus < 201703L
#error "tlsf.hpp is for C++17 or later: before, there is no std::pmr::memory_resource"
#endif

#include <cstddef>
#include <cstdlib>
#include <memory_resource>
#include <new>

#include "tlsf.h"

class tlsf_resource : public std::pmr::memory_resource {
public:
    /// A resource over a heap that the program made. The program ends the heap, after the last
    /// container is gone.
    explicit tlsf_resource(tlsf_t heap) noexcept : heap_(heap), made_(false) {}

    /// A resource over a heap of its own, which tlsf_create_with_pool makes in `bytes` bytes of
    /// memory. The heap ends with the resource. Throws std::bad_alloc where the memory is too
    /// small, or begins at no multiple of a pointer's size.
    tlsf_resource(void *memory, std::size_t bytes)
        : heap_(tlsf_create_with_pool(memory, bytes)), made_(true)
    {
        if (heap_ == nullptr) {
            refuse();
        }
    }

    tlsf_resource(const tlsf_resource &) = delete;
    tlsf_resource &operator=(const tlsf_resource &) = delete;

    ~tlsf_resource() override
    {
        if (made_) {
            tlsf_destroy(heap_);
        }
    }

    /// The heap: for tlsf_add_pool, tlsf_walk_pool and tlsf_check.
    tlsf_t heap() const noexcept { return heap_; }

protected:
    /// Answers a block at a multiple of `align`, which is a power of two up to 2^21. For 0 bytes it
    /// is a block of one byte. Throws std::bad_alloc where the heap refuses the request.
    void *do_allocate(std::size_t bytes, std::size_t align) override
    {
        void *block = tlsf_memalign(heap_, align, bytes == 0 ? 1 : bytes);
        if (block == nullptr) {
            refuse();
        }
        return block;
    }

    /// Frees the block. Does nothing where no live block has the pointer.
    void do_deallocate(void *block, std::size_t, std::size_t) noexcept override
    {
        tlsf_free(heap_, block);
    }

    /// Only the resource itself may free its blocks.
    bool do_is_equal(const std::pmr::memory_resource &other) const noexcept override
    {
        return this == &other;
    }

private:
    // Where a build has no exceptions, the program ends.
    [[noreturn]] static void refuse()
    {
#ifdef __cpp_exceptions
        throw std::bad_alloc();
#else
        std::abort();
#endif
    }

    tlsf_t heap_;
    bool made_;
};

#endif
