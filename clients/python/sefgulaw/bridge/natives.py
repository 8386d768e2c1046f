"""The names that a BUILD file of Bazel has without a load, and which attributes hold what.

A name of `RULES` declares a target. One of `QUIET` declares none and says nothing that the loader
knows of. `VALUES` are functions with the text that stands for their value.
"""

from __future__ import annotations

LOADER_RULES = frozenset(("alias", "filegroup", "genrule", "test_suite"))

RULES = frozenset(
    """
    aar_import action_listener alias android_binary android_device
    android_device_script_fixture android_host_service_fixture
    android_instrumentation_test android_library android_local_test android_sdk
    android_tools_defaults_jar apple_binary apple_cc_toolchain apple_static_library
    available_xcodes cc_binary cc_host_toolchain_alias cc_import cc_libc_top_alias
    cc_library cc_proto_library cc_shared_library cc_static_library cc_test cc_toolchain
    cc_toolchain_alias cc_toolchain_suite config_feature_flag config_setting
    constraint_setting constraint_value extra_action fdo_prefetch_hints fdo_profile
    filegroup genquery genrule j2objc_library java_binary java_import java_library
    java_lite_proto_library java_package_configuration java_plugin java_plugins_flag_alias
    java_proto_library java_runtime java_runtime_alias java_test java_toolchain
    java_toolchain_alias label_flag label_setting memprof_profile objc_import objc_library
    objc_proto_library platform propeller_optimize proto_lang_toolchain proto_library
    py_binary py_library py_runtime py_test sh_binary sh_library sh_test
    starlark_doc_extract test_suite toolchain toolchain_type xcode_config
    xcode_config_alias xcode_version
    """.split()
)

QUIET = frozenset(
    """
    distribs environment environment_group exports_files licenses package package_group
    print register_execution_platforms register_toolchains workspace
    """.split()
)

VALUES = {
    "existing_rule": "None",
    "existing_rules": "{}",
    "module_name": "None",
    "module_version": "None",
    "repo_name": '""',
    "repository_name": '"@"',
    "subpackages": "[]",
}

SELECTS = frozenset(("select", "selects.with_or"))

LABEL_LISTS = frozenset(
    """
    additional_compiler_inputs additional_linker_inputs applicable_licenses aspect_hints
    assets compatible_with constraint_values data deps dynamic_deps embed embedsrcs
    exec_compatible_with exec_tools exported_plugins exports extra_actions hdrs
    implementation_deps interface_deps jars manifests module_interfaces native_deps
    non_arc_srcs parents plugins proguard_specs protos resource_files resource_jars
    resources restricted_to roots runtime_deps scope srcs static_libraries
    target_compatible_with test_deps tests textual_hdrs toolchains tools
    """.split()
)

LABELS = frozenset(
    """
    actual constraint_setting default_constraint_value interface_library java_runtime
    launcher library linker_script main manifest module_map proto shared_library src
    static_library toolchain toolchain_config toolchain_type
    """.split()
)

LISTS = frozenset(
    """
    args cflags clinkopts conlyopts copts cxxopts default_visibility defines env_inherit
    features imports includes javacopts jvm_flags licenses linkopts local_defines opts
    outs packages protoc_opts reserved tags visibility
    """.split()
)

STRINGS = frozenset(
    """
    cmd cmd_bash cmd_bat cmd_ps deprecation import_prefix importpath include_prefix
    main_class name size srcs_version strip_import_prefix strip_include_prefix test_class
    timeout
    """.split()
)

NO_LABELS = (LISTS | STRINGS) - {"name"}
"""The attributes whose strings are no names, so that their bytes need no encoding."""


def want_of(attribute: str) -> str:
    """Returns what kind of value an attribute has: a list, a string, or any."""
    if attribute in LABEL_LISTS or attribute in LISTS:
        return "list"
    return "string" if attribute in STRINGS else "any"
