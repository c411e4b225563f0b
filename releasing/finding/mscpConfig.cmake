# find_package(mscp) makes mscp::mscp, the shared object, or the archive where there is no shared object; and mscp::mscp_static, the
# archive. Both are found from where this file lies.
get_filename_component(mscp_lib "${CMAKE_CURRENT_LIST_DIR}/../.." REALPATH)
get_filename_component(mscp_include "${mscp_lib}/../include" ABSOLUTE)
if(NOT TARGET mscp::mscp_static)
    add_library(mscp::mscp_static STATIC IMPORTED)
    set_target_properties(mscp::mscp_static PROPERTIES
        IMPORTED_LOCATION "${mscp_lib}/libmscp.a" INTERFACE_INCLUDE_DIRECTORIES "${mscp_include}")
    if(EXISTS "${mscp_lib}/libmscp.so")
        add_library(mscp::mscp SHARED IMPORTED)
        set_target_properties(mscp::mscp PROPERTIES IMPORTED_LOCATION "${mscp_lib}/libmscp.so"
            IMPORTED_SONAME @SONAME@ INTERFACE_INCLUDE_DIRECTORIES "${mscp_include}")
    else()
        add_library(mscp::mscp INTERFACE IMPORTED)
        set_target_properties(mscp::mscp PROPERTIES INTERFACE_LINK_LIBRARIES mscp::mscp_static)
    endif()
endif()
unset(mscp_lib)
unset(mscp_include)
