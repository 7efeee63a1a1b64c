! Powers up on a memory with a reset vector and a small program, lists it, runs it, carries the machine through an image,
! runs on, compares images, makes a part read-only, and is refused in several ways. The module tms_replay is
! include/tms_replay.f90.

program powered
  use, intrinsic :: iso_c_binding
  use tms_replay
  implicit none

  integer(c_int8_t) :: memory(0:tms_memory_size - 1) = 0
  integer(c_int8_t) :: image(0:tms_image_size - 1) = 0, later(0:tms_image_size - 1) = 0
  integer(c_int32_t) :: state(tms_state_words) = 0
  integer(c_int64_t) :: counts(tms_counts) = 0
  integer(c_int32_t) :: records(8)
  integer(c_int32_t) :: block_number
  integer(c_int8_t) :: text(tms_line_size) = 0
  integer(c_int32_t) :: listed(tms_line_answer)
  integer(c_int32_t) :: compared(tms_compare_answer), runs(tms_listed_places)
  integer(c_int16_t) :: answer, address

  ! The reset vector, then: LI R1,7FFFh; LI R2,1; A R1,R2; an unassigned word.
  call put(int(z'0000'), int(z'0300'))
  call put(int(z'0002'), int(z'0100'))
  call put(int(z'0100'), int(z'0201'))
  call put(int(z'0102'), int(z'7FFF'))
  call put(int(z'0104'), int(z'0202'))
  call put(int(z'0106'), int(z'0001'))
  call put(int(z'0108'), int(z'A081'))
  call put(int(z'010A'), int(z'0000'))
  records = int(z'003FFFFF', c_int32_t) ! all pins high, no cycles

  ! Each line begins where the one before it ended.
  address = int(z'0100', c_int16_t)
  do while (address < int(z'010C'))
    answer = tms_list(memory, tms_memory_size, address, text, tms_line_size, listed)
    if (answer /= tms_accepted) error stop ! or a refusal's zeros would keep it here
    print '(*(a))', achar(text(:listed(tms_length)))
    address = address + int(2 * listed(tms_words), c_int16_t)
  end do

  answer = tms_power_up(memory, tms_memory_size, state)
  call line()
  call run(2)

  ! Through an image, into a memory and a state that were wiped.
  answer = tms_write_image(state, memory, tms_memory_size, image, tms_image_size)
  print '(a, i0)', 'wrote ', answer
  memory = 0
  state = 0
  call read_image(tms_image_size)
  call run(2)

  ! What these steps changed: PC, ST, and both bytes of R2.
  answer = tms_write_image(state, memory, tms_memory_size, later, tms_image_size)
  call compare(tms_image_size)

  ! From R2 on everything is read-only: A R1,R2 sets the status, and R2 keeps its 8000h.
  state(tms_rom) = int(z'0304', c_int32_t)
  state(tms_pc) = int(z'0108', c_int32_t)
  call run(1)
  print '(a, z2.2, z2.2, a, i0)', 'r2 ', memory(int(z'0304')), memory(int(z'0305')), ' rom ', state(tms_rom)

  ! Refusals: too few records; an odd read-only address, and one beyond the memory; both flags; a number that does not fit
  ! its word, which stays; a damaged block; a short image.
  call run(9)
  state(tms_rom) = tms_no_rom - 1
  call run(1)
  state(tms_rom) = 65536
  call run(1)
  state(tms_rom) = tms_no_rom
  state(tms_flags) = 3
  call run(1)
  state(tms_flags) = 0
  state(tms_st) = 65536
  call run(1)
  print '(13(i0, 1x))', state
  answer = tms_write_image(state, memory, tms_memory_size, image, tms_image_size)
  print '(a, i0)', 'wrote ', answer
  later(3 * 512 + 10) = not(later(3 * 512 + 10))
  call compare(tms_image_size)
  call compare(tms_image_size - 1)
  image(3 * 512 + 10) = not(image(3 * 512 + 10))
  call read_image(tms_image_size)
  call read_image(tms_image_size - 1)
  answer = tms_power_up(memory, tms_memory_size - 2, state)
  call line()

  ! A buffer of 47 bytes is refused and stays as it was: the last line still stands in it.
  answer = tms_list(memory, tms_memory_size, int(z'0100', c_int16_t), text, tms_line_size - 1, listed)
  print '(a, i0, a, i0, a, i0, a, *(a))', 'list ', answer, ' length ', listed(tms_length), ' words ', listed(tms_words), &
      ' text ', achar(text(:20))

contains

  subroutine put(at, word)
    integer, intent(in) :: at, word

    memory(at) = signed_byte(word / 256)
    memory(at + 1) = signed_byte(mod(word, 256))
  end subroutine

  ! The byte's bits in a signed kind.
  function signed_byte(b)
    integer, intent(in) :: b
    integer(c_int8_t) :: signed_byte

    signed_byte = int(merge(b - 256, b, b > 127), c_int8_t)
  end function

  subroutine run(steps)
    integer, intent(in) :: steps

    answer = tms_run(memory, tms_memory_size, state, records, int(size(records), c_size_t), &
        int(steps, c_size_t), 1_c_int16_t, counts)
    call line()
  end subroutine

  subroutine read_image(length)
    integer(c_size_t), intent(in) :: length

    answer = tms_read_image(image, length, memory, tms_memory_size, state, block_number)
    print '(a, i0, a, i0, a, i0)', 'read ', answer, ' block ', block_number, ' pc ', state(tms_pc)
  end subroutine

  ! The image and the later one: the fields by their numbers, then the first run.
  subroutine compare(length)
    integer(c_size_t), intent(in) :: length
    integer :: k

    answer = tms_compare_images(image, tms_image_size, later, length, compared, runs)
    print '(a, i0, a, i0, a, i0, a, *(1x, i0))', 'compare ', answer, ' image ', compared(tms_refused_image), ' block ', &
        compared(tms_refused_block), ' fields', pack([(k, k = 0, tms_field_state + tms_state_words - 1)], &
        [(btest(compared(tms_differing_fields), k), k = 0, tms_field_state + tms_state_words - 1)])
    print '(a, i0, a, i0, a, i0)', 'runs ', compared(tms_runs), ' first ', runs(1), ' length ', runs(2)
  end subroutine

  ! The numbers of a state are never negative, so they print as they are.
  subroutine line()
    print '(a, i0, a, i0, a, i0, a, i0, a, i0, a, i0, a)', 'answer ', answer, ' steps ', counts(tms_steps), &
        ' unassigned ', counts(tms_unassigned), ' pc ', state(tms_pc), ' wp ', state(tms_wp), ' st ', state(tms_st), &
        last()
  end subroutine

  ! The last step, and the number that goes with it, both as text.
  function last()
    character(len=:), allocatable :: last
    character(len=20) :: number

    write (number, '(i0)') counts(tms_last_number)
    select case (counts(tms_last))
    case (tms_was_nothing)
      last = ' none'
    case (tms_was_reset)
      last = ' reset'
    case (tms_was_load)
      last = ' load'
    case (tms_was_level)
      last = ' level' // trim(number)
    case (tms_was_instruction)
      last = ' run'
    case (tms_was_idle)
      last = ' idle'
    case (tms_was_unassigned)
      last = ' word at ' // trim(number)
    case default
      error stop
    end select
  end function
end program
