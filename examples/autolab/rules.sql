RULE (SELECT d.course_user_datum_id, a.course_id FROM assessment_user_data d JOIN assessments a
    ON a.id = d.assessment_id)
  WITHIN (SELECT id, course_id FROM course_user_data);
RULE (SELECT s.course_user_datum_id, a.course_id FROM submissions s JOIN assessments a ON a.id =
    s.assessment_id WHERE s.course_user_datum_id IS NOT NULL)
  WITHIN (SELECT id, course_id FROM course_user_data);
RULE (SELECT e.course_user_datum_id, a.course_id FROM extensions e JOIN assessments a ON a.id =
    e.assessment_id WHERE e.course_user_datum_id IS NOT NULL)
  WITHIN (SELECT id, course_id FROM course_user_data);
RULE (SELECT id FROM extensions WHERE course_user_datum_id IS NULL)
  WITHIN (SELECT id FROM extensions WHERE 1 = 2);
RULE (SELECT sc.problem_id, s.assessment_id FROM scores sc JOIN submissions s ON s.id =
    sc.submission_id WHERE sc.problem_id IS NOT NULL AND s.assessment_id IS NOT NULL)
  WITHIN (SELECT id, assessment_id FROM problems);
RULE (SELECT d.latest_submission_id, d.course_user_datum_id, d.assessment_id FROM
    assessment_user_data d WHERE d.latest_submission_id IS NOT NULL)
  WITHIN (SELECT id, course_user_datum_id, assessment_id FROM submissions);
