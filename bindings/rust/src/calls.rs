//! The calls about a query and about a search, and what they refuse.

use crate::fault::{error_of, Error, Text};
use crate::library::{
    x509check_find, x509check_find_questions, x509check_questions, x509check_validate,
    x509check_validate_with_policies, x509check_why_not, AskedAnswer, DiagnosisAnswer,
    FindingAnswer, LimitFields, ObstacleFields, PolicyInputFields, QueryFields, QuestionFields,
    Refusal, SearchFields, TextFields, VerdictAnswer, CERTIFICATES, PATH_ROOM, REFUSED, STATEMENTS,
};
use crate::policies::{PolicyInputs, Written};
use crate::query::{Profile, Query};
use crate::search::Limits;

/// So many questions there is room for at most when they are asked for first.
const MOST_ROOM: usize = 4096;
/// There is room for so many policies first, and for so many octets of them.
const POLICY_ROOM: usize = 64;
const POLICY_OCTETS: usize = 1024;

/// A search as it is handed to the library.
pub(crate) struct SearchCall<'a> {
    pub anchors: &'a [&'a [u8]],
    pub target: &'a [u8],
    pub bag: &'a [&'a [u8]],
    pub statements: &'a [&'a [u8]],
    pub moment: i64,
    pub purpose: &'a [u8],
    pub limits: Limits,
    pub profile: Profile,
}

/// The query as the library takes it. What it points to may be read while the query and the array of its path live.
fn fields_of(query: &Query<'_>, path: &[TextFields]) -> QueryFields {
    QueryFields {
        anchor: TextFields::of(query.anchor),
        path: path.as_ptr(),
        path_count: path.len(),
        moment: query.moment,
        purpose: TextFields::of(query.purpose.unwrap_or(&[])),
        wide: query.profile.wide(),
    }
}

/// The same of a search, and of the arrays of its anchors and its bag.
fn search_fields_of(
    search: &SearchCall<'_>,
    anchors: &[TextFields],
    bag: &[TextFields],
) -> SearchFields {
    SearchFields {
        anchors: anchors.as_ptr(),
        anchor_count: anchors.len(),
        target: TextFields::of(search.target),
        bag: bag.as_ptr(),
        bag_count: bag.len(),
        moment: search.moment,
        purpose: TextFields::of(search.purpose),
        limits: LimitFields {
            signatures: search.limits.signatures,
            steps: search.limits.steps,
            verdicts: search.limits.verdicts,
        },
        wide: search.profile.wide(),
    }
}

/// What a refused value is, where so many of the certificates are anchors that are told apart.
fn refused(refusal: Refusal, anchors: usize) -> Error {
    let value = match refusal.text {
        CERTIFICATES => match refusal.index.checked_sub(anchors) {
            Some(index) => Some((Text::Certificates, index)),
            None => Some((Text::Anchors, refusal.index)),
        },
        STATEMENTS => Some((Text::Statements, refusal.index)),
        _ => None,
    };
    error_of(refusal.fault, refusal.der_fault, refusal.offset, value)
}

/// What a call writes, which has room for so many questions at first. If there are more, everything is read a second time.
fn written(
    enough: usize,
    anchors: usize,
    call: impl Fn(&mut [QuestionFields]) -> AskedAnswer,
) -> Result<Vec<QuestionFields>, Error> {
    let mut written = vec![QuestionFields::default(); enough.min(MOST_ROOM)];
    loop {
        let answer = call(&mut written);
        if answer.refusal.fault != 0 || answer.refusal.text != 0 {
            return Err(refused(answer.refusal, anchors));
        }
        let fits = answer.count <= written.len();
        written.resize(answer.count, QuestionFields::default());
        if fits {
            return Ok(written);
        }
    }
}

/// What may be asked for a verdict.
pub(crate) fn ask(query: &Query<'_>) -> Result<Vec<QuestionFields>, Error> {
    let path = TextFields::of_each(query.path);
    let statements = TextFields::of_each(query.statements);
    let fields = fields_of(query, &path);
    // Enough for lists, and for responses that come with one certificate.
    let enough = path.len().saturating_mul(1 + 3 * statements.len());
    // The pointers lead to the slices of the query and to these arrays, with their lengths, and all of them live until the call returns. It
    // only reads them, except the room, which lies apart from the others.
    written(enough, 0, |room| unsafe {
        x509check_questions(
            &fields,
            statements.as_ptr(),
            statements.len(),
            room.as_mut_ptr(),
            room.len(),
        )
    })
}

/// What the library says if the signatures with these fingerprints are good and no others.
pub(crate) fn validate(query: &Query<'_>, good: &[[u8; 32]]) -> Result<VerdictAnswer, Error> {
    let path = TextFields::of_each(query.path);
    let statements = TextFields::of_each(query.statements);
    let fields = fields_of(query, &path);
    // As in `ask`; the call only reads.
    let answer = unsafe {
        x509check_validate(
            &fields,
            statements.as_ptr(),
            statements.len(),
            good.as_ptr(),
            good.len(),
        )
    };
    if answer.verdict != REFUSED {
        return Ok(answer);
    }
    Err(refused(answer.refusal, 0))
}

/// The same of a path whose policies are processed, with these. If there are more than there was room for, it is asked a second time.
pub(crate) fn validate_with_policies(
    query: &Query<'_>,
    inputs: &PolicyInputs<'_>,
    good: &[[u8; 32]],
) -> Result<(VerdictAnswer, Written), Error> {
    let path = TextFields::of_each(query.path);
    let statements = TextFields::of_each(query.statements);
    let fields = fields_of(query, &path);
    let initial = TextFields::of_each(&inputs.contents());
    let asked = PolicyInputFields {
        initial_policies: initial.as_ptr(),
        initial_policy_count: initial.len(),
        inhibit_policy_mapping: inputs.inhibit_policy_mapping.into(),
        require_explicit_policy: inputs.require_explicit_policy.into(),
        inhibit_any_policy: inputs.inhibit_any_policy.into(),
    };
    let mut written = Written::with_room(POLICY_ROOM, POLICY_OCTETS);
    loop {
        // As in `ask`; the call writes to these two arrays alone, and no more than their room.
        let answer = unsafe {
            x509check_validate_with_policies(
                &fields,
                &asked,
                statements.as_ptr(),
                statements.len(),
                good.as_ptr(),
                good.len(),
                written.lengths.as_mut_ptr(),
                written.lengths.len(),
                written.octets.as_mut_ptr(),
                written.octets.len(),
            )
        };
        if answer.verdict.verdict == REFUSED {
            return Err(refused(answer.verdict.refusal, 0));
        }
        let fits = written.take(
            answer.authority_count,
            answer.user_count,
            answer.octet_count,
        )?;
        if fits {
            return Ok((answer.verdict, written));
        }
    }
}

/// What may be asked for what is found.
pub(crate) fn ask_among(search: &SearchCall<'_>) -> Result<Vec<QuestionFields>, Error> {
    let anchors = TextFields::of_each(search.anchors);
    let bag = TextFields::of_each(search.bag);
    let statements = TextFields::of_each(search.statements);
    let fields = search_fields_of(search, &anchors, &bag);
    // Enough for a few pairs of certificates, and lists of their issuers.
    let enough = 64 + 16 * statements.len();
    // As in `ask`.
    written(enough, anchors.len(), |room| unsafe {
        x509check_find_questions(
            &fields,
            statements.as_ptr(),
            statements.len(),
            room.as_mut_ptr(),
            room.len(),
        )
    })
}

/// What the library finds if the signatures with these fingerprints are good and no others, and the numbers of the certificates of the
/// path.
pub(crate) fn find(
    search: &SearchCall<'_>,
    good: &[[u8; 32]],
) -> Result<(FindingAnswer, Vec<usize>), Error> {
    let anchors = TextFields::of_each(search.anchors);
    let bag = TextFields::of_each(search.bag);
    let statements = TextFields::of_each(search.statements);
    let fields = search_fields_of(search, &anchors, &bag);
    let mut path = [0; PATH_ROOM];
    // As in `ask`; the call writes to the path alone, and no more than its room.
    let answer = unsafe {
        x509check_find(
            &fields,
            statements.as_ptr(),
            statements.len(),
            good.as_ptr(),
            good.len(),
            path.as_mut_ptr(),
            path.len(),
        )
    };
    if answer.verdict.verdict == REFUSED {
        return Err(refused(answer.verdict.refusal, anchors.len()));
    }
    match path.get(..answer.path_count) {
        Some(numbers) => Ok((answer, numbers.to_vec())),
        None => Err(Error::Unexpected("a path of length", answer.path_count)),
    }
}

/// Why no path is found, and the numbers of the certificates that are told of.
pub(crate) struct Diagnosis {
    pub answer: DiagnosisAnswer,
    pub above: Vec<usize>,
    pub anchors: Vec<usize>,
    pub obstacles: Vec<ObstacleFields>,
}

/// As many of the values as there are, if there was room for them.
fn first<T: Clone>(values: &[T], count: usize) -> Result<Vec<T>, Error> {
    match values.get(..count) {
        Some(first) => Ok(first.to_vec()),
        None => Err(Error::Unexpected("an end of a path of length", count)),
    }
}

/// Why the library finds no path if the signatures with these fingerprints are good and no others.
pub(crate) fn diagnose(search: &SearchCall<'_>, good: &[[u8; 32]]) -> Result<Diagnosis, Error> {
    let anchors = TextFields::of_each(search.anchors);
    let bag = TextFields::of_each(search.bag);
    let fields = search_fields_of(search, &anchors, &bag);
    let mut above = [0; PATH_ROOM];
    let mut named = vec![0; anchors.len()];
    let mut obstacles = vec![ObstacleFields::default(); bag.len()];
    // As in `ask`; the call writes to these three alone, and no more than their room.
    let answer = unsafe {
        x509check_why_not(
            &fields,
            good.as_ptr(),
            good.len(),
            above.as_mut_ptr(),
            above.len(),
            named.as_mut_ptr(),
            named.len(),
            obstacles.as_mut_ptr(),
            obstacles.len(),
        )
    };
    if answer.why == REFUSED {
        return Err(refused(answer.refusal, anchors.len()));
    }
    Ok(Diagnosis {
        above: first(&above, answer.above_count)?,
        anchors: first(&named, answer.anchor_count)?,
        obstacles: first(&obstacles, answer.obstacle_count)?,
        answer,
    })
}
