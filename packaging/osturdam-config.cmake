# find_package(osturdam) gives the target osturdam::osturdam, and osturdam::poll of a master, as far as they are there, wherever the
# folder was moved to.
get_filename_component(osturdam_prefix "${CMAKE_CURRENT_LIST_DIR}/../../.." ABSOLUTE)
foreach(osturdam_part osturdam poll)
  set(osturdam_library "${osturdam_prefix}/lib/libosturdam.a")
  if(osturdam_part STREQUAL poll)
    set(osturdam_library "${osturdam_prefix}/lib/libosturdam_poll.a")
  endif()
  if(NOT TARGET osturdam::${osturdam_part} AND EXISTS "${osturdam_library}")
    add_library(osturdam::${osturdam_part} STATIC IMPORTED)
    set_target_properties(osturdam::${osturdam_part} PROPERTIES
      IMPORTED_LOCATION "${osturdam_library}"
      INTERFACE_INCLUDE_DIRECTORIES "${osturdam_prefix}/include")
  endif()
endforeach()
unset(osturdam_library)
unset(osturdam_prefix)
