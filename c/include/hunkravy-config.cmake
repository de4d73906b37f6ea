# find_package(hunkravy): the targets hunkravy::hunkravy, of the shared library, and hunkravy::static. They are found from where
# this file lies: LIBRARIES/cmake/hunkravy, two folders below the libraries.
get_filename_component(_hunkravy_libraries "${CMAKE_CURRENT_LIST_DIR}/../.." ABSOLUTE)
include("${CMAKE_CURRENT_LIST_DIR}/hunkravy-include.cmake")

if(NOT TARGET hunkravy::hunkravy)
    add_library(hunkravy::hunkravy SHARED IMPORTED)
    set_target_properties(hunkravy::hunkravy PROPERTIES
        IMPORTED_LOCATION "${_hunkravy_libraries}/libhunkravy.so.0"
        IMPORTED_SONAME "libhunkravy.so.0"
        INTERFACE_INCLUDE_DIRECTORIES "${_hunkravy_include}")
    add_library(hunkravy::static STATIC IMPORTED)
    set_target_properties(hunkravy::static PROPERTIES
        IMPORTED_LOCATION "${_hunkravy_libraries}/libhunkravy.a"
        INTERFACE_LINK_OPTIONS "-Wl,--gc-sections"
        INTERFACE_INCLUDE_DIRECTORIES "${_hunkravy_include}")
endif()
