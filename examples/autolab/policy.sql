PARAM Me INT;
PARAM Now INT;
CREATE VIEW MyUser AS SELECT users.* FROM users WHERE id = ?Me;
CREATE VIEW MyData AS SELECT course_user_data.* FROM course_user_data WHERE user_id = ?Me;
CREATE VIEW MyCourses AS SELECT c.*, d.dropped FROM courses c JOIN course_user_data d ON
  d.course_id = c.id WHERE d.user_id = ?Me AND c.disabled = FALSE;
CREATE VIEW Assessments AS SELECT a.*, d.dropped FROM assessments a JOIN course_user_data d ON
  d.course_id = a.course_id WHERE d.user_id = ?Me AND d.dropped = FALSE AND a.start_at <= ?Now;
CREATE VIEW StaffAssessments AS SELECT a.* FROM assessments a JOIN course_user_data d ON
  d.course_id = a.course_id WHERE d.user_id = ?Me AND d.instructor = TRUE;
CREATE VIEW Problems AS SELECT p.id, p.name, p.assessment_id, p.max_score, p.optional, p.grader_id
  FROM problems p JOIN assessments a ON a.id = p.assessment_id JOIN course_user_data d ON
  d.course_id = a.course_id WHERE d.user_id = ?Me AND d.dropped = FALSE AND a.start_at <= ?Now;
CREATE VIEW StaffProblems AS SELECT p.* FROM problems p JOIN assessments a ON a.id =
  p.assessment_id JOIN course_user_data d ON d.course_id = a.course_id WHERE d.user_id = ?Me AND
  d.instructor = TRUE;
CREATE VIEW MyAssessmentData AS SELECT x.* FROM assessment_user_data x JOIN course_user_data d ON
  d.id = x.course_user_datum_id WHERE d.user_id = ?Me;
CREATE VIEW MySubmissions AS SELECT s.id, s.version, s.course_user_datum_id, s.assessment_id,
  s.filename, s.created_at, s.notes, s.special_type, s.ignored FROM submissions s JOIN
  course_user_data d ON d.id = s.course_user_datum_id WHERE d.user_id = ?Me;
CREATE VIEW MyScores AS SELECT sc.*, s.id, s.course_user_datum_id, s.assessment_id FROM scores sc
  JOIN submissions s ON s.id = sc.submission_id JOIN course_user_data d ON d.id =
  s.course_user_datum_id WHERE d.user_id = ?Me AND sc.released = TRUE;
CREATE VIEW MyAnnotations AS SELECT n.* FROM annotations n JOIN submissions s ON s.id =
  n.submission_id JOIN course_user_data d ON d.id = s.course_user_datum_id WHERE d.user_id = ?Me;
CREATE VIEW Announcements AS SELECT n.* FROM announcements n JOIN course_user_data d ON
  d.course_id = n.course_id WHERE d.user_id = ?Me AND n.start_date < ?Now AND n.end_date > ?Now;
CREATE VIEW Persistent AS SELECT n.* FROM announcements n JOIN course_user_data d ON d.course_id =
  n.course_id WHERE d.user_id = ?Me AND n.persistent = TRUE;
CREATE VIEW SystemWide AS SELECT announcements.* FROM announcements WHERE system = TRUE;
CREATE VIEW Attachments AS SELECT t.* FROM attachments t JOIN course_user_data d ON d.course_id =
  t.course_id WHERE d.user_id = ?Me AND t.released = TRUE;
CREATE VIEW MyExtensions AS SELECT e.* FROM extensions e JOIN course_user_data d ON d.id =
  e.course_user_datum_id WHERE d.user_id = ?Me;
CREATE VIEW Graders AS SELECT g.id, g.assessment_id FROM autograders g JOIN assessments a ON a.id
  = g.assessment_id JOIN course_user_data d ON d.course_id = a.course_id WHERE d.user_id = ?Me AND
  d.dropped = FALSE AND a.start_at <= ?Now;
CREATE VIEW StaffNames AS SELECT u.id, u.first_name, u.last_name, u.email FROM users u JOIN
  course_user_data c ON c.user_id = u.id JOIN course_user_data d ON d.course_id = c.course_id
  WHERE d.user_id = ?Me AND c.instructor = TRUE;
CREATE VIEW StaffData AS SELECT c.* FROM course_user_data c JOIN course_user_data d ON d.course_id
  = c.course_id WHERE d.user_id = ?Me AND d.instructor = TRUE;
CREATE VIEW StaffUsers AS SELECT u.* FROM users u JOIN course_user_data c ON c.user_id = u.id JOIN
  course_user_data d ON d.course_id = c.course_id WHERE d.user_id = ?Me AND d.instructor = TRUE;
CREATE VIEW StaffSubmissions AS SELECT s.* FROM submissions s JOIN assessments a ON a.id =
  s.assessment_id JOIN course_user_data d ON d.course_id = a.course_id WHERE d.user_id = ?Me AND
  d.instructor = TRUE;
CREATE VIEW StaffScores AS SELECT sc.* FROM scores sc JOIN submissions s ON s.id =
  sc.submission_id JOIN assessments a ON a.id = s.assessment_id JOIN course_user_data d ON
  d.course_id = a.course_id WHERE d.user_id = ?Me AND d.instructor = TRUE;
CREATE VIEW StaffExtensions AS SELECT e.* FROM extensions e JOIN course_user_data c ON c.id =
  e.course_user_datum_id JOIN course_user_data d ON d.course_id = c.course_id WHERE d.user_id =
  ?Me AND d.instructor = TRUE;
CREATE VIEW StaffAssessmentData AS SELECT x.* FROM assessment_user_data x JOIN assessments a ON
  a.id = x.assessment_id JOIN course_user_data d ON d.course_id = a.course_id WHERE d.user_id =
  ?Me AND d.instructor = TRUE;
CREATE VIEW SectionSubmissions AS SELECT s.id, s.version, s.course_user_datum_id, s.assessment_id,
  s.filename, s.created_at, s.notes, s.special_type, s.ignored, c.id, c.course_id, c.section FROM
  submissions s JOIN course_user_data c ON c.id = s.course_user_datum_id JOIN course_user_data d
  ON d.course_id = c.course_id AND d.section = c.section WHERE d.user_id = ?Me AND
  d.course_assistant = TRUE;
