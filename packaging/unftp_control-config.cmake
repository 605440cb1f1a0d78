# find_package(unftp_control) defines unftp_control::unftp_control, the shared library, and
# unftp_control::unftp_control_static.
# Where the folder was found by a link, as /lib that is /usr/lib, the prefix is that of its place.
get_filename_component(unftp_control_PREFIX "${CMAKE_CURRENT_LIST_DIR}" REALPATH)
get_filename_component(unftp_control_PREFIX "${unftp_control_PREFIX}/@UP@" ABSOLUTE)

if(NOT TARGET unftp_control::unftp_control)
  add_library(unftp_control::unftp_control SHARED IMPORTED)
  set_target_properties(unftp_control::unftp_control PROPERTIES
    IMPORTED_LOCATION "${unftp_control_PREFIX}/@LIBDIR@/@FILE@"
    IMPORTED_SONAME "@LOADED@"
    INTERFACE_INCLUDE_DIRECTORIES "${unftp_control_PREFIX}/include")
  add_library(unftp_control::unftp_control_static STATIC IMPORTED)
  set_target_properties(unftp_control::unftp_control_static PROPERTIES
    IMPORTED_LOCATION "${unftp_control_PREFIX}/@LIBDIR@/libunftp_control.a"
    INTERFACE_INCLUDE_DIRECTORIES "${unftp_control_PREFIX}/include")
endif()
