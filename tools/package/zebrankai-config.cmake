# Zebrankai for CMake:  find_package(zebrankai 0.1 REQUIRED)  and one of two targets:
#   zebrankai::zebrankai   the proved archive
#   zebrankai::shared      the shared library that is made of it
# All paths are found from this file's own, so that the folder may be moved.
get_filename_component(_zebrankai_here "${CMAKE_CURRENT_LIST_DIR}" REALPATH)
get_filename_component(_zebrankai_prefix "${_zebrankai_here}/../../.." ABSOLUTE)

foreach(_zebrankai_file include/zebrankai.h include/zebrankai_util.h lib/libzebrankai.a lib/libzebrankai.so.1)
    if(NOT EXISTS "${_zebrankai_prefix}/${_zebrankai_file}")
        set(zebrankai_FOUND FALSE)
        set(zebrankai_NOT_FOUND_MESSAGE "${_zebrankai_prefix}/${_zebrankai_file} is missing")
    endif()
endforeach()

if(NOT DEFINED zebrankai_FOUND OR zebrankai_FOUND)
    if(NOT TARGET zebrankai::zebrankai)
        add_library(zebrankai::zebrankai STATIC IMPORTED)
        set_target_properties(zebrankai::zebrankai PROPERTIES
            IMPORTED_LOCATION "${_zebrankai_prefix}/lib/libzebrankai.a"
            IMPORTED_LINK_INTERFACE_LANGUAGES C
            INTERFACE_INCLUDE_DIRECTORIES "${_zebrankai_prefix}/include")
    endif()
    if(NOT TARGET zebrankai::shared)
        add_library(zebrankai::shared SHARED IMPORTED)
        set_target_properties(zebrankai::shared PROPERTIES
            IMPORTED_LOCATION "${_zebrankai_prefix}/lib/libzebrankai.so.1"
            IMPORTED_SONAME libzebrankai.so.1
            INTERFACE_INCLUDE_DIRECTORIES "${_zebrankai_prefix}/include")
    endif()
endif()

unset(_zebrankai_file)
unset(_zebrankai_prefix)
unset(_zebrankai_here)
