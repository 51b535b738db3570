CREATE TABLE users (
  id BIGINT NOT NULL,
  email VARCHAR(255) NOT NULL,
  first_name VARCHAR(255),
  last_name VARCHAR(255),
  administrator SMALLINT NOT NULL,
  school VARCHAR(255),
  major VARCHAR(255),
  year VARCHAR(255),
  PRIMARY KEY (id),
  UNIQUE (email)
);
CREATE TABLE courses (
  id BIGINT NOT NULL,
  name VARCHAR(255) NOT NULL,
  semester VARCHAR(255),
  late_slack INT NOT NULL,
  grace_days INT NOT NULL,
  display_name VARCHAR(255) NOT NULL,
  start_date BIGINT,
  end_date BIGINT,
  disabled SMALLINT NOT NULL,
  gb_message TEXT,
  PRIMARY KEY (id),
  UNIQUE (name)
);
CREATE TABLE course_user_data (
  id BIGINT NOT NULL,
  lecture VARCHAR(255),
  section VARCHAR(255),
  grade_policy TEXT,
  course_id BIGINT NOT NULL,
  user_id BIGINT NOT NULL,
  instructor SMALLINT NOT NULL,
  course_assistant SMALLINT NOT NULL,
  dropped SMALLINT NOT NULL,
  nickname VARCHAR(255),
  PRIMARY KEY (id),
  UNIQUE (user_id, course_id),
  FOREIGN KEY (course_id) REFERENCES courses (id),
  FOREIGN KEY (user_id) REFERENCES users (id)
);
CREATE TABLE assessments (
  id BIGINT NOT NULL,
  course_id BIGINT NOT NULL,
  name VARCHAR(255) NOT NULL,
  display_name VARCHAR(255),
  category_name VARCHAR(255) NOT NULL,
  start_at BIGINT,
  due_at BIGINT,
  end_at BIGINT,
  max_submissions INT,
  disable_handins SMALLINT,
  handout VARCHAR(255),
  writeup VARCHAR(255),
  PRIMARY KEY (id),
  UNIQUE (name, course_id),
  FOREIGN KEY (course_id) REFERENCES courses (id)
);
CREATE TABLE assessment_user_data (
  id BIGINT NOT NULL,
  course_user_datum_id BIGINT NOT NULL,
  assessment_id BIGINT NOT NULL,
  latest_submission_id BIGINT,
  grade_type INT NOT NULL,
  group_id BIGINT,
  PRIMARY KEY (id),
  UNIQUE (latest_submission_id),
  UNIQUE (course_user_datum_id, assessment_id),
  FOREIGN KEY (course_user_datum_id) REFERENCES course_user_data (id),
  FOREIGN KEY (assessment_id) REFERENCES assessments (id),
  FOREIGN KEY (latest_submission_id) REFERENCES submissions (id)
);
CREATE TABLE problems (
  id BIGINT NOT NULL,
  name VARCHAR(255),
  assessment_id BIGINT,
  max_score INT,
  optional SMALLINT NOT NULL,
  grader_id BIGINT,
  PRIMARY KEY (id),
  FOREIGN KEY (assessment_id) REFERENCES assessments (id)
);
CREATE TABLE submissions (
  id BIGINT NOT NULL,
  version INT,
  course_user_datum_id BIGINT,
  assessment_id BIGINT,
  filename VARCHAR(255),
  created_at BIGINT NOT NULL,
  notes TEXT,
  special_type INT,
  ignored SMALLINT NOT NULL,
  submitter_ip VARCHAR(255),
  PRIMARY KEY (id),
  FOREIGN KEY (course_user_datum_id) REFERENCES course_user_data (id),
  FOREIGN KEY (assessment_id) REFERENCES assessments (id)
);
CREATE TABLE scores (
  id BIGINT NOT NULL,
  submission_id BIGINT,
  problem_id BIGINT,
  score INT,
  feedback TEXT,
  released SMALLINT NOT NULL,
  grader_id BIGINT,
  PRIMARY KEY (id),
  UNIQUE (problem_id, submission_id),
  FOREIGN KEY (submission_id) REFERENCES submissions (id),
  FOREIGN KEY (problem_id) REFERENCES problems (id)
);
CREATE TABLE annotations (
  id BIGINT NOT NULL,
  submission_id BIGINT,
  filename VARCHAR(255),
  line INT,
  submitted_by VARCHAR(255),
  comment TEXT,
  value INT,
  problem_id BIGINT,
  PRIMARY KEY (id),
  FOREIGN KEY (submission_id) REFERENCES submissions (id)
);
CREATE TABLE announcements (
  id BIGINT NOT NULL,
  title VARCHAR(255),
  description TEXT,
  start_date BIGINT,
  end_date BIGINT,
  course_id BIGINT,
  persistent SMALLINT NOT NULL,
  system SMALLINT NOT NULL,
  PRIMARY KEY (id),
  FOREIGN KEY (course_id) REFERENCES courses (id)
);
CREATE TABLE attachments (
  id BIGINT NOT NULL,
  filename VARCHAR(255),
  name VARCHAR(255),
  released SMALLINT NOT NULL,
  course_id BIGINT,
  assessment_id BIGINT,
  PRIMARY KEY (id),
  FOREIGN KEY (course_id) REFERENCES courses (id),
  FOREIGN KEY (assessment_id) REFERENCES assessments (id)
);
CREATE TABLE extensions (
  id BIGINT NOT NULL,
  course_user_datum_id BIGINT,
  assessment_id BIGINT,
  days INT,
  infinite SMALLINT NOT NULL,
  PRIMARY KEY (id),
  FOREIGN KEY (course_user_datum_id) REFERENCES course_user_data (id),
  FOREIGN KEY (assessment_id) REFERENCES assessments (id)
);
CREATE TABLE autograders (
  id BIGINT NOT NULL,
  assessment_id BIGINT,
  autograde_timeout INT,
  autograde_image VARCHAR(255),
  release_score INT,
  PRIMARY KEY (id),
  FOREIGN KEY (assessment_id) REFERENCES assessments (id)
);
RULE (SELECT d.course_user_datum_id, a.course_id FROM assessment_user_data d JOIN assessments a
    ON a.id = d.assessment_id)
  WITHIN (SELECT id, course_id FROM course_user_data);
RULE (SELECT s.course_user_datum_id, a.course_id FROM submissions s JOIN assessments a ON a.id =
    s.assessment_id WHERE s.course_user_datum_id IS NOT NULL)
  WITHIN (SELECT id, course_id FROM course_user_data);
RULE (SELECT e.course_user_datum_id, a.course_id FROM extensions e JOIN assessments a ON a.id =
    e.assessment_id WHERE e.course_user_datum_id IS NOT NULL)
  WITHIN (SELECT id, course_id FROM course_user_data);
RULE (SELECT id FROM extensions WHERE course_user_datum_id IS NULL)
  WITHIN (SELECT id FROM extensions WHERE 1 = 2);
RULE (SELECT sc.problem_id, s.assessment_id FROM scores sc JOIN submissions s ON s.id =
    sc.submission_id WHERE sc.problem_id IS NOT NULL AND s.assessment_id IS NOT NULL)
  WITHIN (SELECT id, assessment_id FROM problems);
RULE (SELECT d.latest_submission_id, d.course_user_datum_id, d.assessment_id FROM
    assessment_user_data d WHERE d.latest_submission_id IS NOT NULL)
  WITHIN (SELECT id, course_user_datum_id, assessment_id FROM submissions);
