# find_package(gatekeeper): the pay-run gatekeeper for a host in C or C++, wherever it has been unpacked.
#
#   gatekeeper::gatekeeper    the shared library
#   gatekeeper::static        the proved archive itself
#
# No target without its files: what is missing is said here, and not by the linker.

# the folder itself, should /lib be a name of /usr/lib
get_filename_component(_gatekeeper_prefix "${CMAKE_CURRENT_LIST_DIR}" REALPATH)
get_filename_component(_gatekeeper_prefix "${_gatekeeper_prefix}/../../.." ABSOLUTE)
foreach(_gatekeeper_file include/gatekeeper.h lib/libgatekeeper.so.@VERSION@ lib/libgatekeeper.a)
    if(NOT EXISTS "${_gatekeeper_prefix}/${_gatekeeper_file}")
        set(gatekeeper_FOUND FALSE)
        set(gatekeeper_NOT_FOUND_MESSAGE "there is no ${_gatekeeper_prefix}/${_gatekeeper_file}")
        return()
    endif()
endforeach()

if(NOT TARGET gatekeeper::gatekeeper)
    add_library(gatekeeper::gatekeeper SHARED IMPORTED)
    set_target_properties(gatekeeper::gatekeeper PROPERTIES
        IMPORTED_LOCATION "${_gatekeeper_prefix}/lib/libgatekeeper.so.@VERSION@"
        IMPORTED_SONAME "libgatekeeper.so.@MAJOR@"
        INTERFACE_INCLUDE_DIRECTORIES "${_gatekeeper_prefix}/include")
    add_library(gatekeeper::static STATIC IMPORTED)
    set_target_properties(gatekeeper::static PROPERTIES
        IMPORTED_LOCATION "${_gatekeeper_prefix}/lib/libgatekeeper.a"
        INTERFACE_INCLUDE_DIRECTORIES "${_gatekeeper_prefix}/include")
endif()
unset(_gatekeeper_prefix)
unset(_gatekeeper_file)
