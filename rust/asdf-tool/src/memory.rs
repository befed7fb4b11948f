//! The memory of the tool. If there is not enough, the tool says so and ends with status 2.

use asdf_system::Memory;

#[global_allocator]
static MEMORY: Memory = Memory {
    sentence: "asdf-layout: there is not enough memory, so the command was not completed\n",
};
