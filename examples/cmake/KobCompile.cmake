# Compiles the catalogues of a project in a build of CMake, all in one process:
#
#   include(KobCompile.cmake)
#   kob_compile_catalogues(catalogues garden ${CMAKE_CURRENT_SOURCE_DIR}/po)
#
# is a target `catalogues` that is part of `all`. It compiles what has changed below the folder po to
# locale/LANGUAGE/LC_MESSAGES/garden.mo in the build folder, which `install` copies to share/locale.
find_program(KOB_COMPILE kob-compile)
include(GNUInstallDirs)

function(kob_compile_catalogues target domain folder)
  if(NOT KOB_COMPILE)
    message(FATAL_ERROR "there is no kob-compile; -DKOB_COMPILE=FILE names it")
  endif()
  set(locale ${CMAKE_CURRENT_BINARY_DIR}/locale)
  add_custom_target(${target} ALL
    COMMAND ${KOB_COMPILE} -c --quiet -d ${domain} -o ${locale} ${folder}
    COMMENT "compiling the catalogues of ${domain}"
    VERBATIM)
  install(DIRECTORY ${locale}/ DESTINATION ${CMAKE_INSTALL_LOCALEDIR} FILES_MATCHING PATTERN "*.mo")
endfunction()
