//! The calls of the library for C and their structs, as x509check.h has them.

use std::ffi::c_char;

/// Octets of the caller.
#[repr(C)]
pub(crate) struct TextFields {
    pub octets: *const u8,
    pub length: usize,
}

#[repr(C)]
pub(crate) struct QueryFields {
    pub anchor: TextFields,
    pub path: *const TextFields,
    pub path_count: usize,
    pub moment: i64,
    pub purpose: TextFields,
    pub wide: u32,
}

/// What a search may spend.
#[repr(C)]
pub(crate) struct LimitFields {
    pub signatures: usize,
    pub steps: usize,
    pub verdicts: usize,
}

#[repr(C)]
pub(crate) struct SearchFields {
    pub anchors: *const TextFields,
    pub anchor_count: usize,
    pub target: TextFields,
    pub bag: *const TextFields,
    pub bag_count: usize,
    pub moment: i64,
    pub purpose: TextFields,
    pub limits: LimitFields,
    pub wide: u32,
}

impl TextFields {
    /// What it points to may be read while the slice lives.
    pub(crate) fn of(octets: &[u8]) -> TextFields {
        TextFields {
            octets: octets.as_ptr(),
            length: octets.len(),
        }
    }

    pub(crate) fn of_each(values: &[&[u8]]) -> Vec<TextFields> {
        values.iter().map(|value| TextFields::of(value)).collect()
    }
}

#[repr(C)]
#[derive(Clone, Copy)]
pub(crate) struct Part {
    pub offset: usize,
    pub length: usize,
}

impl Part {
    /// The part of the octets, if it lies inside them.
    pub(crate) fn of(self, octets: &[u8]) -> Option<&[u8]> {
        octets.get(self.offset..self.offset.checked_add(self.length)?)
    }
}

#[repr(C)]
pub(crate) struct Answer {
    pub fault: u32,
    pub offset: usize,
}

#[repr(C)]
#[derive(Clone, Copy)]
pub(crate) struct ExtensionFields {
    pub has_basic_constraints: bool,
    pub is_authority: bool,
    pub has_path_length: bool,
    pub has_key_usage: bool,
    pub needs_policy_processing: bool,
    pub no_check: bool,
    pub path_length: u32,
    pub key_usage: u32,
    pub alternative_names: usize,
    pub permitted_subtrees: usize,
    pub excluded_subtrees: usize,
    pub purposes: usize,
    pub unrecognised: usize,
}

#[repr(C)]
#[derive(Clone, Copy)]
pub(crate) struct Fields {
    pub version: u32,
    pub not_before: i64,
    pub not_after: i64,
    pub tbs: Part,
    pub serial: Part,
    pub algorithm: Part,
    pub issuer: Part,
    pub subject: Part,
    pub subject_public_key_info: Part,
    pub key: Part,
    pub signature: Part,
    pub extensions: ExtensionFields,
}

impl Fields {
    pub(crate) fn parts(&self) -> [Part; 8] {
        [
            self.tbs,
            self.serial,
            self.algorithm,
            self.issuer,
            self.subject,
            self.subject_public_key_info,
            self.key,
            self.signature,
        ]
    }
}

#[repr(C)]
pub(crate) struct CertificateAnswer {
    pub fault: u32,
    pub der_fault: u32,
    pub offset: usize,
    pub fields: Fields,
}

/// The verdicts, by the numbers of the header. A struct of zeros is none of them.
pub(crate) const VALID: u32 = 1;
pub(crate) const INVALID: u32 = 2;
pub(crate) const REVOKED: u32 = 3;
pub(crate) const UNKNOWN: u32 = 4;
pub(crate) const REFUSED: u32 = 5;
pub(crate) const NOT_FOUND: u32 = 6;
pub(crate) const GAVE_UP: u32 = 7;

/// Why no path is found, beside the limits that are used up.
pub(crate) const TARGET_AT_FAULT: u32 = 8;
pub(crate) const PATHS_END: u32 = 9;

/// Which certificate or statement is refused, and why. All is 0 if none is.
#[repr(C)]
#[derive(Clone, Copy, Default)]
pub(crate) struct Refusal {
    pub text: u32,
    pub fault: u32,
    pub der_fault: u32,
    pub index: usize,
    pub offset: usize,
}

#[repr(C)]
pub(crate) struct VerdictAnswer {
    pub verdict: u32,
    pub reason: u32,
    pub certificate: usize,
    pub refusal: Refusal,
}

/// What is asked of policies: which, each by its contents, and three flags.
#[repr(C)]
pub(crate) struct PolicyInputFields {
    pub initial_policies: *const TextFields,
    pub initial_policy_count: usize,
    pub inhibit_policy_mapping: u32,
    pub require_explicit_policy: u32,
    pub inhibit_any_policy: u32,
}

/// The verdict, how many policies there are of the authorities and of the user, and how many octets all of them have.
#[repr(C)]
pub(crate) struct PoliciesAnswer {
    pub verdict: VerdictAnswer,
    pub authority_count: usize,
    pub user_count: usize,
    pub octet_count: usize,
}

/// The verdict on the path that is found, and how many certificates it has.
#[repr(C)]
pub(crate) struct FindingAnswer {
    pub verdict: VerdictAnswer,
    pub path_count: usize,
}

#[repr(C)]
#[derive(Clone, Copy, Default)]
pub(crate) struct ObstacleFields {
    pub certificate: usize,
    pub reason: u32,
}

/// Why no path is found, and how many certificates are told of.
#[repr(C)]
pub(crate) struct DiagnosisAnswer {
    pub why: u32,
    pub reason: u32,
    pub above_count: usize,
    pub anchor_count: usize,
    pub obstacle_count: usize,
    pub refusal: Refusal,
}

/// The room that the numbers of each path fit into.
pub(crate) const PATH_ROOM: usize = 129;

/// What a place or a refusal is in, by the numbers of the header.
pub(crate) const CERTIFICATES: u32 = 1;
pub(crate) const STATEMENTS: u32 = 2;

/// `text` is one of the two above.
#[repr(C)]
#[derive(Clone, Copy, Default)]
pub(crate) struct Place {
    pub text: u32,
    pub index: usize,
    pub offset: usize,
    pub length: usize,
}

#[repr(C)]
#[derive(Clone, Copy, Default)]
pub(crate) struct QuestionFields {
    pub algorithm: Place,
    pub key_info: Place,
    pub message: Place,
    pub signature: Place,
    pub fingerprint: [u8; 32],
}

impl QuestionFields {
    pub(crate) fn places(&self) -> [Place; 4] {
        [self.algorithm, self.key_info, self.message, self.signature]
    }
}

#[repr(C)]
pub(crate) struct AskedAnswer {
    pub refusal: Refusal,
    pub count: usize,
}

#[repr(C)]
pub(crate) struct SpeakingAnswer {
    pub speaks: u32,
    pub fault: u32,
    pub der_fault: u32,
    pub offset: usize,
}

/// The room that each name fits into.
pub(crate) const NAME_ROOM: usize = 32;

extern "C" {
    pub(crate) fn x509check_check(octets: *const u8, length: usize) -> Answer;
    pub(crate) fn x509check_read_certificate(octets: *const u8, length: usize)
        -> CertificateAnswer;
    pub(crate) fn x509check_fingerprint(
        algorithm: *const u8,
        algorithm_length: usize,
        key_info: *const u8,
        key_info_length: usize,
        message: *const u8,
        message_length: usize,
        signature: *const u8,
        signature_length: usize,
        fingerprint: *mut u8,
    );
    pub(crate) fn x509check_sha256(octets: *const u8, length: usize, digest: *mut u8);
    pub(crate) fn x509check_speaks_for(
        certificate: *const u8,
        certificate_length: usize,
        kind: u32,
        identity: *const u8,
        identity_length: usize,
    ) -> SpeakingAnswer;
    pub(crate) fn x509check_fault_name(fault: u32, name: *mut c_char, room: usize) -> usize;
    pub(crate) fn x509check_questions(
        query: *const QueryFields,
        statements: *const TextFields,
        statement_count: usize,
        questions: *mut QuestionFields,
        room: usize,
    ) -> AskedAnswer;
    pub(crate) fn x509check_validate(
        query: *const QueryFields,
        statements: *const TextFields,
        statement_count: usize,
        fingerprints: *const [u8; 32],
        fingerprint_count: usize,
    ) -> VerdictAnswer;
    pub(crate) fn x509check_validate_with_policies(
        query: *const QueryFields,
        inputs: *const PolicyInputFields,
        statements: *const TextFields,
        statement_count: usize,
        fingerprints: *const [u8; 32],
        fingerprint_count: usize,
        lengths: *mut usize,
        length_room: usize,
        octets: *mut u8,
        octet_room: usize,
    ) -> PoliciesAnswer;
    pub(crate) fn x509check_find_questions(
        search: *const SearchFields,
        statements: *const TextFields,
        statement_count: usize,
        questions: *mut QuestionFields,
        room: usize,
    ) -> AskedAnswer;
    pub(crate) fn x509check_find(
        search: *const SearchFields,
        statements: *const TextFields,
        statement_count: usize,
        fingerprints: *const [u8; 32],
        fingerprint_count: usize,
        path: *mut usize,
        room: usize,
    ) -> FindingAnswer;
    pub(crate) fn x509check_why_not(
        search: *const SearchFields,
        fingerprints: *const [u8; 32],
        fingerprint_count: usize,
        above: *mut usize,
        above_room: usize,
        anchors: *mut usize,
        anchor_room: usize,
        obstacles: *mut ObstacleFields,
        obstacle_room: usize,
    ) -> DiagnosisAnswer;
}

#[cfg(test)]
mod tests {
    use super::*;
    use std::mem::size_of;

    #[test]
    fn structs_have_the_sizes_of_the_header() {
        assert_eq!(size_of::<TextFields>(), 16);
        assert_eq!(size_of::<QueryFields>(), 64);
        assert_eq!(size_of::<SearchFields>(), 104);
        assert_eq!(size_of::<PolicyInputFields>(), 32);
        assert_eq!(size_of::<PoliciesAnswer>(), 72);
        assert_eq!(size_of::<FindingAnswer>(), 56);
        assert_eq!(size_of::<ObstacleFields>(), 16);
        assert_eq!(size_of::<DiagnosisAnswer>(), 64);
        assert_eq!(size_of::<Part>(), 16);
        assert_eq!(size_of::<Answer>(), 16);
        assert_eq!(size_of::<ExtensionFields>(), 56);
        assert_eq!(size_of::<Fields>(), 208);
        assert_eq!(size_of::<CertificateAnswer>(), 224);
        assert_eq!(size_of::<Refusal>(), 32);
        assert_eq!(size_of::<VerdictAnswer>(), 48);
        assert_eq!(size_of::<Place>(), 32);
        assert_eq!(size_of::<QuestionFields>(), 160);
        assert_eq!(size_of::<AskedAnswer>(), 40);
        assert_eq!(size_of::<SpeakingAnswer>(), 24);
    }
}
