! The replay machine for a TMS 9980A with a TMS 9901, for Fortran. What is lent, what the answers mean and what a caller
! owes stands in tms_replay.h. The names are those of C, but for two arguments: `stop_at` is `stop` there, and
! `block_number` is `block`. The places of a state's numbers, of a run's counts and of the numbers about a line or about two
! images are counted from 1, in C from 0. Compile this file with the program, and link target/staticlib/libtms_replay.a, which
! `examples/library` builds.

module tms_replay
  use, intrinsic :: iso_c_binding, only: c_int8_t, c_int16_t, c_int32_t, c_int64_t, c_size_t
  implicit none

  ! Sizes: the memory's and an image's bytes, the bytes that a line may need, a state's numbers, a run's counts, the
  ! numbers about a line, those about two images, the runs of differing bytes that are listed and the places that these take.
  integer(c_size_t), parameter :: tms_memory_size = 16384, tms_image_size = 17408, tms_line_size = 48
  integer, parameter :: tms_state_words = 13, tms_counts = 4, tms_line_answer = 2, tms_compare_answer = 4, &
      tms_listed_runs = 256, tms_listed_places = 512

  ! The numbers of a state, from 0 to 65535 each but for the last; flags are at most 2 (1: idle, 2: the next boundary takes
  ! no sample). The last is where the read-only part begins, an even number of at most tms_no_rom, which means none.
  integer, parameter :: tms_wp = 1, tms_pc = 2, tms_st = 3, tms_flags = 4, tms_mask = 5, tms_direction = 6, &
      tms_latch = 7, tms_load = 8, tms_decrementer = 9, tms_reading = 10, tms_phase = 11, tms_pending = 12, &
      tms_rom = 13
  integer(c_int32_t), parameter :: tms_no_rom = 16384

  ! A run's counts: steps done, unassigned words met, the kind of the last step, and the number that goes with it.
  integer, parameter :: tms_steps = 1, tms_unassigned = 2, tms_last = 3, tms_last_number = 4

  ! The kinds of a last step.
  integer(c_int64_t), parameter :: tms_was_nothing = 0, tms_was_reset = 1, tms_was_load = 2, tms_was_level = 3, &
      tms_was_instruction = 4, tms_was_idle = 5, tms_was_unassigned = 6

  ! The numbers about a line.
  integer, parameter :: tms_length = 1, tms_words = 2

  ! The numbers about two images: the image and the block that a refusal names, the fields that differ (bit k for field k),
  ! how many runs of differing bytes there are. Of those listed, run n, counted from 1, has the address of its first byte in
  ! place 2n - 1 and its length in place 2n.
  integer, parameter :: tms_refused_image = 1, tms_refused_block = 2, tms_differing_fields = 3, tms_runs = 4

  ! The fields of block 0, numbered from 0 by their words, as bits are; number n of a state, counted from 1, is field n + 1.
  integer, parameter :: tms_field_format = 0, tms_field_edition = 1, tms_field_state = 2

  ! The answers.
  integer(c_int16_t), parameter :: tms_accepted = 0, tms_memory = 1, tms_state = 2, tms_records = 3, tms_image = 5, &
      tms_block_check = 6, tms_block_number = 7, tms_format = 8, tms_fields = 9, tms_text = 11

  ! Fortran has no unsigned integers: bytes, records and addresses are given by their bits.
  interface
    function tms_power_up(memory, memory_len, state) bind(c)
      import
      integer(c_int8_t), intent(inout) :: memory(*)
      integer(c_size_t), value :: memory_len
      integer(c_int32_t), intent(out) :: state(tms_state_words)
      integer(c_int16_t) :: tms_power_up
    end function

    function tms_run(memory, memory_len, state, records, records_len, steps, stop_at, counts) bind(c)
      import
      integer(c_int8_t), intent(inout) :: memory(*)
      integer(c_size_t), value :: memory_len
      integer(c_int32_t), intent(inout) :: state(tms_state_words)
      integer(c_int32_t), intent(in) :: records(*)
      integer(c_size_t), value :: records_len
      integer(c_size_t), value :: steps
      integer(c_int16_t), value :: stop_at
      integer(c_int64_t), intent(out) :: counts(tms_counts)
      integer(c_int16_t) :: tms_run
    end function

    function tms_read_image(image, image_len, memory, memory_len, state, block_number) bind(c)
      import
      integer(c_int8_t), intent(in) :: image(*)
      integer(c_size_t), value :: image_len
      integer(c_int8_t), intent(inout) :: memory(*)
      integer(c_size_t), value :: memory_len
      integer(c_int32_t), intent(out) :: state(tms_state_words)
      integer(c_int32_t), intent(out) :: block_number
      integer(c_int16_t) :: tms_read_image
    end function

    function tms_write_image(state, memory, memory_len, image, image_len) bind(c)
      import
      integer(c_int32_t), intent(in) :: state(tms_state_words)
      integer(c_int8_t), intent(in) :: memory(*)
      integer(c_size_t), value :: memory_len
      integer(c_int8_t), intent(inout) :: image(*)
      integer(c_size_t), value :: image_len
      integer(c_int16_t) :: tms_write_image
    end function

    function tms_list(memory, memory_len, address, text, text_len, answer) bind(c)
      import
      integer(c_int8_t), intent(in) :: memory(*)
      integer(c_size_t), value :: memory_len
      integer(c_int16_t), value :: address
      integer(c_int8_t), intent(inout) :: text(*)
      integer(c_size_t), value :: text_len
      integer(c_int32_t), intent(out) :: answer(tms_line_answer)
      integer(c_int16_t) :: tms_list
    end function

    function tms_compare_images(first, first_len, second, second_len, answer, runs) bind(c)
      import
      integer(c_int8_t), intent(in) :: first(*)
      integer(c_size_t), value :: first_len
      integer(c_int8_t), intent(in) :: second(*)
      integer(c_size_t), value :: second_len
      integer(c_int32_t), intent(out) :: answer(tms_compare_answer)
      integer(c_int32_t), intent(out) :: runs(tms_listed_places)
      integer(c_int16_t) :: tms_compare_images
    end function
  end interface
end module
