// A memory resource for the containers of C++17, in the style in which projects write theirs over
// Conte's tlsf: one pool to begin with, and one more where it is full. It is ours, and copied from
// no project. It names nothing of tlsf but the calls and types of Conte's header.
#pragma once

#include <cstddef>
#include <memory>
#include <memory_resource>
#include <new>
#include <vector>

#include "tlsf.h"

class TlsfResource : public std::pmr::memory_resource {
public:
    explicit TlsfResource(std::size_t bytes)
        : first_(new unsigned char[bytes]), next_(bytes),
          heap_(tlsf_create_with_pool(first_.get(), bytes))
    {
        if (heap_ == nullptr) {
            throw std::bad_alloc();
        }
    }

    TlsfResource(const TlsfResource &) = delete;
    TlsfResource &operator=(const TlsfResource &) = delete;

    ~TlsfResource() override { tlsf_destroy(heap_); }

    std::size_t pools() const { return 1 + more_.size(); }

    std::size_t used() const
    {
        std::size_t bytes = 0;
        tlsf_walk_pool(tlsf_get_pool(heap_), add, &bytes);
        for (const Pool &pool : more_) {
            tlsf_walk_pool(pool.pool, add, &bytes);
        }
        return bytes;
    }

    bool intact() const { return tlsf_check(heap_) == 0; }

protected:
    void *do_allocate(std::size_t bytes, std::size_t align) override
    {
        bytes = bytes == 0 ? 1 : bytes;
        void *block = tlsf_memalign(heap_, align, bytes);
        if (block == nullptr) {
            grow(bytes + align);
            block = tlsf_memalign(heap_, align, bytes);
        }
        if (block == nullptr) {
            throw std::bad_alloc();
        }
        return block;
    }

    void do_deallocate(void *block, std::size_t, std::size_t) override { tlsf_free(heap_, block); }

    bool do_is_equal(const std::pmr::memory_resource &other) const noexcept override
    {
        return this == &other;
    }

private:
    struct Pool {
        std::unique_ptr<unsigned char[]> memory;
        pool_t pool;
    };

    static void add(void *, std::size_t size, int used, void *user)
    {
        *static_cast<std::size_t *>(user) += used ? size : 0;
    }

    void grow(std::size_t bytes)
    {
        std::size_t least = bytes + bytes / 8 + tlsf_pool_overhead() + tlsf_alloc_overhead();
        next_ = 2 * next_ < least ? least : 2 * next_;
        Pool pool{std::unique_ptr<unsigned char[]>(new unsigned char[next_]), nullptr};
        pool.pool = tlsf_add_pool(heap_, pool.memory.get(), next_);
        if (pool.pool == nullptr) {
            throw std::bad_alloc();
        }
        more_.push_back(std::move(pool));
    }

    std::unique_ptr<unsigned char[]> first_;
    std::size_t next_;
    tlsf_t heap_;
    std::vector<Pool> more_;
};
