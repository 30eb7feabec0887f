//! The numbers of operand kinds, section tags and presence bits, by name. include/kollafrin.h has the same, and so has docs/REFERENCE.md.

/// The kinds of operands, 1 to 51; 46 to 51 stand in grammars alone.
pub mod kind {
    macro_rules! kinds {
        ($($name:literal $constant:ident $number:literal)*) => {
            $(#[doc = $name] pub const $constant: u8 = $number;)*

            /// The name of a kind.
            ///
            /// ```
            /// assert_eq!(kollafrin::kind::name(kollafrin::kind::CAPABILITY), Some("Capability"));
            /// ```
            pub fn name(kind: u8) -> Option<&'static str> {
                match kind {
                    $($number => Some($name),)*
                    _ => None,
                }
            }
        };
    }
    kinds! {
        "ImageOperands" IMAGE_OPERANDS 1
        "FPFastMathMode" FP_FAST_MATH_MODE 2
        "SelectionControl" SELECTION_CONTROL 3
        "LoopControl" LOOP_CONTROL 4
        "FunctionControl" FUNCTION_CONTROL 5
        "MemorySemantics" MEMORY_SEMANTICS 6
        "MemoryAccess" MEMORY_ACCESS 7
        "KernelProfilingInfo" KERNEL_PROFILING_INFO 8
        "SourceLanguage" SOURCE_LANGUAGE 9
        "ExecutionModel" EXECUTION_MODEL 10
        "AddressingModel" ADDRESSING_MODEL 11
        "MemoryModel" MEMORY_MODEL 12
        "ExecutionMode" EXECUTION_MODE 13
        "StorageClass" STORAGE_CLASS 14
        "Dim" DIM 15
        "SamplerAddressingMode" SAMPLER_ADDRESSING_MODE 16
        "SamplerFilterMode" SAMPLER_FILTER_MODE 17
        "ImageFormat" IMAGE_FORMAT 18
        "ImageChannelOrder" IMAGE_CHANNEL_ORDER 19
        "ImageChannelDataType" IMAGE_CHANNEL_DATA_TYPE 20
        "FPRoundingMode" FP_ROUNDING_MODE 21
        "LinkageType" LINKAGE_TYPE 22
        "AccessQualifier" ACCESS_QUALIFIER 23
        "FunctionParameterAttribute" FUNCTION_PARAMETER_ATTRIBUTE 24
        "Decoration" DECORATION 25
        "BuiltIn" BUILT_IN 26
        "Scope" SCOPE 27
        "GroupOperation" GROUP_OPERATION 28
        "KernelEnqueueFlags" KERNEL_ENQUEUE_FLAGS 29
        "Capability" CAPABILITY 30
        "IdMemorySemantics" ID_MEMORY_SEMANTICS 31
        "IdScope" ID_SCOPE 32
        "IdRef" ID_REF 33
        "LiteralInt32" LITERAL_INT32 34
        "LiteralExtInstInteger" LITERAL_EXT_INST_INTEGER 35
        "LiteralInt64" LITERAL_INT64 36
        "LiteralFloat32" LITERAL_FLOAT32 37
        "LiteralFloat64" LITERAL_FLOAT64 38
        "LiteralSpecConstantOpInteger" LITERAL_SPEC_CONSTANT_OP_INTEGER 39
        "LiteralString" LITERAL_STRING 40
        "RayFlags" RAY_FLAGS 41
        "RayQueryIntersection" RAY_QUERY_INTERSECTION 42
        "RayQueryCommittedIntersectionType" RAY_QUERY_COMMITTED_INTERSECTION_TYPE 43
        "RayQueryCandidateIntersectionType" RAY_QUERY_CANDIDATE_INTERSECTION_TYPE 44
        "FragmentShadingRate" FRAGMENT_SHADING_RATE 45
        "IdResultType" ID_RESULT_TYPE 46
        "IdResult" ID_RESULT 47
        "LiteralContextDependentNumber" LITERAL_CONTEXT_DEPENDENT_NUMBER 48
        "PairLiteralIntegerIdRef" PAIR_LITERAL_INTEGER_ID_REF 49
        "PairIdRefLiteralInteger" PAIR_ID_REF_LITERAL_INTEGER 50
        "PairIdRefIdRef" PAIR_ID_REF_ID_REF 51
    }
}

/// The section tags, 1 to 16.
pub mod tag {
    macro_rules! tags {
        ($($what:literal $constant:ident $number:literal)*) => {
            $(#[doc = $what] pub const $constant: u32 = $number;)*
        };
    }
    tags! {
        "capabilities" CAPABILITY 1
        "extensions" EXTENSION 2
        "imports of extended instruction sets" EXT_INST_IMPORT 3
        "memory model" MEMORY_MODEL 4
        "entry points" ENTRY_POINT 5
        "execution modes" EXECUTION_MODE 6
        "strings and sources" DEBUG_STRING_SOURCE 7
        "names" DEBUG_NAME 8
        "notes of what processed the module" DEBUG_MODULE_PROCESSED 9
        "annotations" ANNOTATION 10
        "types, constants, global variables, undefs and lines outside blocks" TYPE_CONSTANT_GLOBAL 11
        "a function's definition (OpFunction)" FUNCTION 12
        "a function's parameter" FUNCTION_PARAMETER 13
        "a block's label" LABEL 14
        "an instruction in a block, its terminator included" BLOCK 15
        "a function's end" FUNCTION_END 16
    }
}

/// The presence bits of an instruction record, which stand above its opcode: 65536 × these.
pub mod presence {
    /// The instruction has a result type.
    pub const RESULT_TYPE: u32 = 1;
    /// The instruction has a result id.
    pub const RESULT_ID: u32 = 2;
}
